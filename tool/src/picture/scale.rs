//! Where on a picture each block is: rows of small squares.

/// How a volume is laid out on a picture.
#[derive(Clone, Copy, Debug, PartialEq, Eq)]
pub struct Scale {
    /// How many blocks are in a row.
    pub row: u32,
    /// How many pixels wide and high a block is.
    pub cell: u32,
    /// After how many blocks in a row there is a number above it.
    pub tick: u32,
}

const fn scale(row: u32, cell: u32, tick: u32) -> Scale {
    Scale { row, cell, tick }
}

/// The scales, for volumes from small to large.
const SCALES: [Scale; 6] = [
    scale(20, 40, 5),
    scale(50, 18, 10),
    scale(100, 10, 10),
    scale(200, 6, 20),
    scale(500, 3, 50),
    scale(1000, 2, 100),
];

/// How many pixels there are between two numbers beside the rows, at least.
const BETWEEN_NUMBERS: u32 = 14;

impl Scale {
    /// The smallest scale that shows a volume not higher than wide, or the largest.
    pub fn for_blocks(blocks: u32) -> Scale {
        let mut scales = SCALES.into_iter();
        let fitting = scales.find(|scale| blocks <= scale.row * scale.row);
        fitting.unwrap_or(SCALES[SCALES.len() - 1])
    }

    /// How many pixels wide a row is.
    pub fn width(self) -> u32 {
        self.row * self.cell
    }

    /// How many pixels high so many blocks are.
    pub fn height(self, blocks: u32) -> u32 {
        blocks.div_ceil(self.row) * self.cell
    }

    /// After how many rows there is a number beside them.
    pub fn rows_between_numbers(self) -> u32 {
        let mut steps = [1, 2, 5, 10].into_iter();
        let step = steps.find(|step| step * self.cell >= BETWEEN_NUMBERS);
        step.unwrap_or(10)
    }

    /// The outline of blocks in a row, as the data of an SVG path. Where they go over the end of a
    /// row it is still one outline, unless no block of the one part is above one of the other.
    pub fn outline(self, lbn: u32, blocks: u32) -> String {
        let Scale { row, cell, .. } = self;
        let last = lbn + blocks - 1;
        let (x, y) = (lbn % row * cell, lbn / row * cell);
        let (end, low) = ((last % row + 1) * cell, last / row * cell);
        let (right, below) = (self.width(), y + cell);
        if low == y {
            return self.bar(x, y, end);
        }
        if low == below && end <= x {
            return self.bar(x, y, right) + &self.bar(0, low, end);
        }
        format!("M{x} {y}H{right}V{low}H{end}v{cell}H0V{below}H{x}z")
    }

    /// The outline of a part of one row.
    fn bar(self, x: u32, y: u32, end: u32) -> String {
        let (width, cell) = (end - x, self.cell);
        format!("M{x} {y}h{width}v{cell}h-{width}z")
    }
}

#[cfg(test)]
mod tests {
    use super::*;

    #[test]
    fn volumes_of_every_size_are_readable() {
        let layout = |blocks| {
            let scale = Scale::for_blocks(blocks);
            (scale.row, scale.width(), scale.height(blocks))
        };
        assert_eq!(layout(100), (20, 800, 200));
        assert_eq!(layout(400), (20, 800, 800));
        assert_eq!(layout(401), (50, 900, 162));
        assert_eq!(layout(4_096), (100, 1_000, 410));
        assert_eq!(layout(20_480), (200, 1_200, 618));
        assert_eq!(layout(1_044_480), (1_000, 2_000, 2_090));
    }

    #[test]
    fn numbers_do_not_touch() {
        for scale in SCALES {
            assert!(scale.rows_between_numbers() * scale.cell >= BETWEEN_NUMBERS);
            assert_eq!(scale.row % scale.tick, 0);
        }
    }

    #[test]
    fn outlines_in_a_row_and_over_rows() {
        let scale = scale(20, 10, 5);
        assert_eq!(scale.outline(0, 1), "M0 0h10v10h-10z");
        assert_eq!(scale.outline(25, 15), "M50 10h150v10h-150z");
        // Five blocks at the end of a row and five at the start of the next, and one more.
        assert_eq!(scale.outline(15, 10), "M150 0h50v10h-50zM0 10h50v10h-50z");
        assert_eq!(scale.outline(5, 21), "M50 0H200V10H60v10H0V10H50z");
        assert_eq!(scale.outline(0, 60), "M0 0H200V20H200v10H0V10H0z");
    }

    /// The most that a picture of the largest volume can have: each block for itself.
    #[test]
    fn pictures_stay_small() {
        let blocks = 1_044_480;
        let longest = Scale::for_blocks(blocks).outline(blocks - 1, 1).len();
        assert!(longest * blocks as usize <= 20_000_000, "{longest}");
    }
}
