pub use self::constitutive_model::ConstitutiveModel;
pub use self::failure_model::FailureModel;
pub use self::plastic_model::PlasticModel;
pub use crate::core::prelude::CoreFailureModel;

mod constitutive_model;
mod failure_model;
mod plastic_model;
