pub use self::morton2::{morton_decode2, morton_encode2};
pub use self::morton3::{morton_decode3, morton_encode3};
pub use self::physics::inv_exact;

mod morton2;
mod morton3;
mod physics;

/// For `parry::utils::hashmap`, whose map is the standard one with another hash.
pub mod hashmap {
    pub use std::collections::HashMap;
}
