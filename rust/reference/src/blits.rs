//! The visits of a blit (document 02, R-6).

use crate::drawing::{Point, Window};
use std::cell::RefCell;
use std::rc::Rc;

/// What decides which pixels a blit visits, and in which order.
#[derive(Clone, Copy, PartialEq, Eq, Debug)]
pub struct Blit {
    pub window: Window,
    /// The corner of XY1.
    pub corner: Point,
    /// The width and height of XY2.
    pub size: (u32, u32),
    /// The word of XY3.
    pub direction: u32,
}

impl Blit {
    /// "A blit is to visit only destination pixels inside the buffer and, with CLIP,
    /// inside the clip, in the same order as before" (document 02, R-6), which is
    /// "width x height pixels in rows": how far each visit lies from the corner.
    pub fn visits(self) -> Vec<Point> {
        let mut visits = Vec::new();
        for row in 0..self.size.1 {
            for column in 0..self.size.0 {
                let offset = self.offset(column, row);
                if self.shows(offset) {
                    visits.push(offset);
                }
            }
        }
        visits
    }

    /// "XY3 1 and 3 go bottom to top, 2 and 3 right to left; XY0 and XY1 are the corners
    /// of 003's table".
    fn offset(&self, column: u32, row: u32) -> Point {
        let (column, row) = (i64::from(column), i64::from(row));
        Point {
            x: if self.direction & 2 == 2 {
                -column
            } else {
                column
            },
            y: if self.direction & 1 == 1 { -row } else { row },
        }
    }

    /// Whether the destination pixel so far from the corner is inside.
    fn shows(&self, offset: Point) -> bool {
        self.window.holds(self.corner.moved(offset))
    }

    /// The same visits, kept from step to step: a blit has up to 2,048 x 2,048 pixels.
    pub fn kept_visits(self) -> Rc<[Point]> {
        KEPT.with_borrow_mut(|kept| {
            match kept.iter().position(|(blit, _)| *blit == self) {
                Some(0) => {}
                Some(place) => kept.swap(0, place),
                None => {
                    kept.insert(0, (self, self.visits().into()));
                    kept.truncate(MOST_KEPT);
                }
            }
            kept[0].1.clone()
        })
    }
}

const MOST_KEPT: usize = 32;

thread_local! {
    /// The visits of the blits that were asked for last, the latest first.
    static KEPT: RefCell<Vec<(Blit, Rc<[Point]>)>> = const { RefCell::new(Vec::new()) };
}
