//! A channel's magnitude over carriers and data symbols, as text and as a picture.

use crate::png::Picture;

/// The magnitude that is shown brightest; the mean power is 1.
const BRIGHTEST: f64 = 2.0;
const SHADES: &[u8] = b".:-=+*#%@";

pub struct Panel {
    pub title: String,
    pub columns: usize,
    /// Row by row, the highest carrier first. Pilots have no estimate.
    pub cells: Vec<Option<f64>>,
    /// Cells with a wrong bit.
    pub wrong: Vec<bool>,
}

impl Panel {
    pub fn rows(&self) -> usize {
        self.cells.len() / self.columns
    }

    /// One row of shades; a blank where there is no estimate.
    pub fn text(&self, row: usize) -> String {
        let cells = &self.cells[row * self.columns..][..self.columns];
        let shade = |magnitude: f64| SHADES[step(magnitude, SHADES.len())] as char;
        cells.iter().map(|cell| cell.map_or(' ', shade)).collect()
    }
}

/// The place of a magnitude among so many steps.
fn step(magnitude: f64, steps: usize) -> usize {
    ((magnitude / BRIGHTEST * steps as f64) as usize).min(steps - 1)
}

/// Sizes in pixels.
const CELL: usize = 16;
const DOT: usize = 6;
const MARGIN: usize = 24;
const TITLE: usize = 28;
const BAR: usize = 14;
const CAPTION: &str = "carriers upwards, symbols to the right, grey: pilot, red: a wrong bit";

/// The panels side by side, with a scale at the right.
pub fn picture(panels: &[Panel]) -> Picture {
    let (columns, rows) = (panels[0].columns, panels[0].rows());
    let (width, height) = (CELL * columns + MARGIN, CELL * rows);
    let scale = MARGIN + panels.len() * width;
    let top = MARGIN / 2 + TITLE;
    let mut picture = Picture::new(scale + BAR + 2 * MARGIN, top + height + TITLE + MARGIN);
    for (i, panel) in panels.iter().enumerate() {
        draw(panel, &mut picture, MARGIN + i * width, top);
    }
    for y in 0..height {
        picture.fill(scale, top + y, BAR, 1, Picture::color(1.0 - y as f64 / height as f64));
    }
    for (label, y) in [("2", 0), ("1", height / 2 - 7), ("0", height - 14)] {
        picture.write(label, scale + BAR + 8, top + y);
    }
    picture.write(CAPTION, MARGIN, top + height + MARGIN);
    picture
}

fn draw(panel: &Panel, picture: &mut Picture, left: usize, top: usize) {
    picture.write(&panel.title, left, top - TITLE);
    for (i, (cell, &wrong)) in panel.cells.iter().zip(&panel.wrong).enumerate() {
        let (x, y) = (left + i % panel.columns * CELL, top + i / panel.columns * CELL);
        let color = cell.map_or(Picture::EMPTY, |magnitude| Picture::color(magnitude / BRIGHTEST));
        picture.fill(x, y, CELL, CELL, color);
        if wrong {
            picture.fill(x + (CELL - DOT) / 2, y + (CELL - DOT) / 2, DOT, DOT, Picture::MARK);
        }
    }
}
