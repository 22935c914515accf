/// Opens what is private above. Coordinates go in as arrays, so that both dimensions are called alike.
pub mod way_in {
    use super::SpGrid;

    #[cfg(feature = "dim2")]
    pub const AXES: usize = 2;
    #[cfg(feature = "dim3")]
    pub const AXES: usize = 3;

    pub const BLOCK_MX: u64 = SpGrid::<()>::BLOCK_MX;
    pub const BLOCK_MY: u64 = SpGrid::<()>::BLOCK_MY;
    #[cfg(feature = "dim3")]
    pub const BLOCK_MZ: u64 = SpGrid::<()>::BLOCK_MZ;
    pub const REGION_ID_MASK: u64 = SpGrid::<()>::REGION_ID_MASK;
    pub const PACKED_NBH_SHIFTS: &[u64] = &super::PACKED_NBH_SHIFTS;
    pub const PACKED_NBH_REGION_SHIFTS: &[u64] = &super::PACKED_NBH_REGION_SHIFTS;

    #[cfg(feature = "dim2")]
    pub fn pack([x, y]: [u32; AXES]) -> u64 {
        super::pack(x, y)
    }

    #[cfg(feature = "dim3")]
    pub fn pack([x, y, z]: [u32; AXES]) -> u64 {
        super::pack(x, y, z)
    }

    #[cfg(feature = "dim2")]
    pub fn packi([x, y]: [i32; AXES]) -> u64 {
        super::packi(x, y)
    }

    #[cfg(feature = "dim3")]
    pub fn packi([x, y, z]: [i32; AXES]) -> u64 {
        super::packi(x, y, z)
    }

    pub fn unpack(id: u64) -> [u32; AXES] {
        super::unpack(id)
    }

    pub fn masked_add<const MASK: u64>(i: u64, j: u64) -> u64 {
        super::masked_add::<MASK>(i, j)
    }

    pub fn packed_add(i: u64, j: u64) -> u64 {
        super::packed_add(i, j)
    }

    pub fn nbh_shifts() -> Vec<u64> {
        super::nbh_shifts().to_vec()
    }

    pub fn nbh_region_shifts() -> Vec<u64> {
        super::nbh_region_shifts().to_vec()
    }

    /// A grid over other memory than `new` maps, which is 28 bytes.
    pub fn over<T>(cell_width: super::Real, memory: super::MmapMut) -> SpGrid<T> {
        SpGrid { cell_width, memory, _phantom: super::PhantomData }
    }
}
