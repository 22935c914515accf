//! Cells and regions of points of the plane, as document 01 says them.

/// The cells on an axis that the first cell of a stencil can have: r is from 1 to 65,535, and the cell one less.
const LEAST_R: f32 = 1.0;
const LARGEST_R: f32 = 65535.0;

/// r on each axis: the number of the nearest cell, not cut to any range.
pub fn nearest(position: [f32; 2], cell_width: f32) -> [f32; 2] {
    position.map(|x| (x / cell_width).round())
}

/// The first cell of the stencil of a particle, where r is in range on both axes.
pub fn first_cell(position: [f32; 2], cell_width: f32) -> Option<[u32; 2]> {
    let r = nearest(position, cell_width);
    r.iter().all(|r| (LEAST_R..=LARGEST_R).contains(r)).then(|| r.map(|r| r as u32 - 1))
}

/// The cell itself and eight more, in no order that matters.
pub fn stencil([x, y]: [u32; 2]) -> impl Iterator<Item = [u32; 2]> {
    (0..9).map(move |place| [x + place % 3, y + place / 3])
}

/// The id of a cell's region: bit k of x, from 2 on, is bit 12 + 2(k - 2), and y's is one higher.
pub fn region([x, y]: [u32; 2]) -> u64 {
    let spread = |part: u32| (2..28).map(|k| u64::from(part >> k & 1) << (12 + 2 * (k - 2))).sum::<u64>();
    spread(x) | spread(y) << 1
}

/// The regions that a stencil lies in, by its first cell.
pub fn regions([x, y]: [u32; 2]) -> [u64; 4] {
    [[x, y], [x + 2, y], [x, y + 2], [x + 2, y + 2]].map(region)
}

/// A cell's number in its region.
pub fn number_in_region([x, y]: [u32; 2]) -> usize {
    (4 * (y % 4) + x % 4) as usize
}

/// A region's cell by its number: what `region` and `number_in_region` are taken from.
pub fn cell_of(region: u64, number: usize) -> [u32; 2] {
    let gathered = |id: u64| (2..28).map(|k| ((id >> (12 + 2 * (k - 2)) & 1) as u32) << k).sum::<u32>();
    [gathered(region) + number as u32 % 4, gathered(region >> 1) + number as u32 / 4]
}

/// The centre of a cell.
pub fn centre(cell: [u32; 2], cell_width: f32) -> [f32; 2] {
    cell.map(|part| part as f32 * cell_width)
}

/// A region's colour.
pub fn colour(region: u64) -> u64 {
    region >> 12 & 3
}

#[cfg(test)]
mod tests {
    use super::*;

    #[test]
    fn document_01s_values() {
        assert_eq!(region([5, 5]), 12608 & !0xfff);
        assert_eq!(region([3, 3]), 0);
        assert_eq!(region([4, 0]), 4096);
        assert_eq!(region([0, 4]), 8192);
        assert_eq!(region([1 << 28, 0]), 0);
        assert_eq!(number_in_region([6, 9]), 6);
    }

    #[test]
    fn a_cell_is_found_again() {
        for cell in [[5, 6], [0, 3], [65535, 40000], [(1 << 28) - 1, (1 << 27) + 2]] {
            assert_eq!(cell_of(region(cell), number_in_region(cell)), cell);
        }
        assert_eq!(centre([5, 16777217], 0.5), [2.5, 8388608.0]);
    }

    #[test]
    fn a_stencil_lies_in_its_regions() {
        for cell in (0..64).map(|place| [place % 8, place / 8]) {
            assert!(stencil(cell).all(|other| regions(cell).contains(&region(other))));
            assert!(regions(cell).iter().all(|id| stencil(cell).any(|other| region(other) == *id)));
        }
    }

    #[test]
    fn r_from_1_to_65535_is_a_cell() {
        let cell = |x: f32| first_cell([x, 1.0], 1.0).map(|cell| cell[0]);
        assert_eq!([0.5, 1.0, 65534.5, 65535.0].map(cell), [Some(0), Some(0), Some(65534), Some(65534)]);
        assert_eq!([0.49999997, -1.0, 65535.5, f32::INFINITY, f32::NAN].map(cell), [None; 5]);
    }
}
