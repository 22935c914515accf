//! Ids of the cells of a sparse grid: whole numbers alone. Nothing here refuses anything.
//!
//! A cell has an id, which holds its coordinates; a region is 4 by 4 cells in the plane and 4 by 4 by 4 in space, and its id is that of
//! its first cell. [`dim2`] and [`dim3`] have the same names.

/// The sum of the coordinates that the mask marks in both ids; all other bits are 0.
pub fn masked_add(mask: u64, i: u64, j: u64) -> u64 {
    archive!(mk_masked_add: mask i j)
}

/// The region of a cell: its id with the low 12 bits zero.
///
/// ```
/// use mangerknot::ids::{dim2, region_of};
/// assert_eq!(region_of(dim2::pack(5, 5)), dim2::pack(4, 4));
/// ```
pub fn region_of(cell_id: u64) -> u64 {
    archive!(mk_region_of: cell_id)
}

/// Ids in the plane. A coordinate keeps 28 bits.
pub mod dim2 {
    /// The id of the cell at x, y.
    ///
    /// ```
    /// assert_eq!(mangerknot::ids::dim2::pack(5, 5), 12608);
    /// ```
    pub fn pack(x: u32, y: u32) -> u64 {
        archive!(mk_pack2: x y)
    }

    /// The id of the cell at x, y, which may be negative: two's complement.
    pub fn packi(x: i32, y: i32) -> u64 {
        archive!(mk_packi2: x y)
    }

    /// The coordinates x and y of an id, whatever its stray bits.
    pub fn unpack(xy: u64) -> [u32; 2] {
        let cell = archive!(mk_unpack2: xy);
        [cell.x, cell.y]
    }

    /// The id of the sum of two cells; stray bits are ignored and answered 0.
    pub fn packed_add(i: u64, j: u64) -> u64 {
        archive!(mk_packed_add2: i j)
    }

    /// The cell less 1 on every axis.
    pub fn shift_cell_neg_one(cell_id: u64) -> u64 {
        archive!(mk_shift_cell_neg_one2: cell_id)
    }

    /// The cell less 2 on every axis.
    pub fn shift_cell_neg_two(cell_id: u64) -> u64 {
        archive!(mk_shift_cell_neg_two2: cell_id)
    }

    /// The cell plus 5 on every axis.
    pub fn shift_cell_plus_five(cell_id: u64) -> u64 {
        archive!(mk_shift_cell_plus_five2: cell_id)
    }

    /// The number of a cell in its region: 4 y + x, from 0 to 15.
    pub fn number_in_region(cell_id: u64) -> u64 {
        archive!(mk_number_in_region2: cell_id)
    }

    /// The cell of a region by its number, modulo 16.
    pub fn cell_of_region(region_id: u64, number: u64) -> u64 {
        archive!(mk_cell_of_region2: region_id number)
    }

    /// Whether the region has the colour; colours are 0 to 3.
    pub fn is_in_region_with_color(region_id: u64, color: u64) -> bool {
        archive!(mk_is_in_region_with_color2: region_id color) != 0
    }

    /// The regions, other than its own, that a region's stencils reach.
    ///
    /// ```
    /// use mangerknot::ids::dim2::{pack, region_neighbors};
    /// let mut reached = region_neighbors(0);
    /// reached.sort_unstable();
    /// assert_eq!(reached, [pack(4, 0), pack(0, 4), pack(4, 4)]);
    /// ```
    pub fn region_neighbors(region_id: u64) -> [u64; 3] {
        archive!(mk_region_neighbors2: region_id).ids
    }

    /// The packed shifts from a cell to the cells of its stencil, in order.
    pub fn nbh_shifts() -> [u64; 9] {
        archive!(mk_nbh_shifts2:).ids
    }

    /// The packed shifts from a region to its neighbours, in order.
    pub fn nbh_region_shifts() -> [u64; 3] {
        archive!(mk_nbh_region_shifts2:).ids
    }

    /// The ids of a cell's stencil, in order.
    pub fn stencil_ids(cell_id: u64) -> [u64; 9] {
        archive!(mk_stencil_ids2: cell_id).ids
    }
}

/// Ids in space. x keeps 20 bits, y and z keep 19.
pub mod dim3 {
    /// The id of the cell at x, y, z.
    ///
    /// ```
    /// assert_eq!(mangerknot::ids::dim3::pack(4, 4, 4), 28672);
    /// ```
    pub fn pack(x: u32, y: u32, z: u32) -> u64 {
        archive!(mk_pack3: x y z)
    }

    /// The id of the cell at x, y, z, which may be negative: two's complement.
    pub fn packi(x: i32, y: i32, z: i32) -> u64 {
        archive!(mk_packi3: x y z)
    }

    /// The coordinates x, y and z of an id, whatever its stray bits.
    pub fn unpack(xyz: u64) -> [u32; 3] {
        let cell = archive!(mk_unpack3: xyz);
        [cell.x, cell.y, cell.z]
    }

    /// The id of the sum of two cells; stray bits, bit 63 among them, are ignored and answered 0.
    pub fn packed_add(i: u64, j: u64) -> u64 {
        archive!(mk_packed_add3: i j)
    }

    /// The cell less 1 on every axis.
    pub fn shift_cell_neg_one(cell_id: u64) -> u64 {
        archive!(mk_shift_cell_neg_one3: cell_id)
    }

    /// The cell less 2 on every axis.
    pub fn shift_cell_neg_two(cell_id: u64) -> u64 {
        archive!(mk_shift_cell_neg_two3: cell_id)
    }

    /// The cell plus 5 on every axis.
    pub fn shift_cell_plus_five(cell_id: u64) -> u64 {
        archive!(mk_shift_cell_plus_five3: cell_id)
    }

    /// The number of a cell in its region: 16 z + 4 y + x, from 0 to 63.
    pub fn number_in_region(cell_id: u64) -> u64 {
        archive!(mk_number_in_region3: cell_id)
    }

    /// The cell of a region by its number, modulo 64.
    pub fn cell_of_region(region_id: u64, number: u64) -> u64 {
        archive!(mk_cell_of_region3: region_id number)
    }

    /// Whether the region has the colour; colours are 0 to 7.
    pub fn is_in_region_with_color(region_id: u64, color: u64) -> bool {
        archive!(mk_is_in_region_with_color3: region_id color) != 0
    }

    /// The regions, other than its own, that a region's stencils reach.
    pub fn region_neighbors(region_id: u64) -> [u64; 7] {
        archive!(mk_region_neighbors3: region_id).ids
    }

    /// The packed shifts from a cell to the cells of its stencil, in order.
    pub fn nbh_shifts() -> [u64; 27] {
        archive!(mk_nbh_shifts3:).ids
    }

    /// The packed shifts from a region to its neighbours, in order.
    pub fn nbh_region_shifts() -> [u64; 7] {
        archive!(mk_nbh_region_shifts3:).ids
    }

    /// The ids of a cell's stencil, in order.
    pub fn stencil_ids(cell_id: u64) -> [u64; 27] {
        archive!(mk_stencil_ids3: cell_id).ids
    }
}
