//! Cells of points, the place of a region in a list, and clear.

use crate::floats::point;
use crate::lists::NodesMut;
use crate::refused::{judged, Asked, Refused};

/// The centre of the cell that is nearest to a point.
pub fn cell_pos_closest_to_point2(cell_width: f32, pt: [f32; 2]) -> [f32; 2] {
    let centre = archive!(mk_cell_pos_closest_to_point2: cell_width(point(pt)));
    [centre.x, centre.y]
}

/// The id of that cell; a coordinate is 0 where it is below 0 or a NaN, and at most 2^32 - 1, of which an id keeps 28 bits.
pub fn cell_at_point2(cell_width: f32, pt: [f32; 2]) -> u64 {
    archive!(mk_cell_at_point2: cell_width(point(pt)))
}

/// The id of the first cell of a point's stencil, one less on each axis (of 0, the last one).
///
/// ```
/// use mangerknot::{ids::dim2::pack, sp_grid::cell_associated_to_point2};
/// assert_eq!(cell_associated_to_point2(0.5, [3.1, 1.0]), pack(5, 1));
/// ```
pub fn cell_associated_to_point2(cell_width: f32, pt: [f32; 2]) -> u64 {
    archive!(mk_cell_associated_to_point2: cell_width(point(pt)))
}

/// The region of that cell: where a particle belongs.
pub fn region_associated_to_point2(cell_width: f32, pt: [f32; 2]) -> u64 {
    archive!(mk_region_associated_to_point2: cell_width(point(pt)))
}

/// The centre of a cell, whatever stray bits its id has.
pub fn cell_center2(cell_width: f32, cell_id: u64) -> [f32; 2] {
    let centre = archive!(mk_cell_center2: cell_width cell_id);
    [centre.x, centre.y]
}

/// The place of an id in a list that strictly ascends. In any other list it may not be found; what is found stands there.
///
/// ```
/// assert_eq!(mangerknot::sp_grid::lookup(&[4096, 8192], 8192), Some(1));
/// assert_eq!(mangerknot::sp_grid::lookup(&[4096, 8192], 0), None);
/// ```
pub fn lookup(ids: &[u64], id: u64) -> Option<usize> {
    let answer = archive!(mk_lookup: [ids] id);
    (answer.found != 0).then(|| answer.place)
}

/// Every node of every listed region becomes all +0, flag off. Refuses 1, 2 and 6.
pub fn clear2(ids: &[u64], nodes: NodesMut<'_>) -> Result<(), Refused> {
    let answer = archive!(mk_clear2: (ids.len()) [ids] [mut nodes.floats] [mut nodes.words]);
    judged(answer, || Asked { ids: Some(ids), nodes: Some(nodes.as_read()), ..Asked::default() })
}
