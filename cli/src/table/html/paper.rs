//! How the table goes on paper. The widths are estimates: fonts differ, and a browser shrinks what is a little too wide.

use crate::table::View;

/// What A4 and US Letter both have between margins of 10 millimetres.
const PORTRAIT_MM: f64 = 190.0;
const LANDSCAPE_MM: f64 = 259.0;
const POINT_MM: f64 = 0.353;
/// The width of a character, in parts of the font's size.
const CHARACTER: f64 = 0.56;
/// Type is no larger than this, turned to landscape below the second size, and the table is given up below the third.
const LARGEST_PT: f64 = 10.0;
const UPRIGHT_PT: f64 = 8.5;
const SMALLEST_PT: f64 = 6.0;

/// What a mark, a name that is written upwards and the space beside a column take, in characters.
const MARK: f64 = 2.0;
const UPWARDS: f64 = 2.0;
const BESIDE: f64 = 0.6;
/// What the frame of an action takes.
const FRAME: f64 = 1.0;
/// A level of the hierarchy; deeper ones are not indented further.
const LEVEL: f64 = 1.6;
pub const DEEPEST: usize = 12;
/// With so many objects, names that are longer than their cells are written upwards.
const MANY_OBJECTS: usize = 9;

pub enum Paper {
    /// A table in type of this size.
    Portrait(f64),
    Landscape(f64),
    /// Too wide for a table that could be read: for each subject the objects one after another.
    List,
}

impl Paper {
    /// What is added to the style.
    pub fn style(&self) -> String {
        match self {
            Paper::Portrait(size) => format!("@media print {{ table {{ font-size: {size:.1}pt }} }}\n"),
            Paper::Landscape(size) => {
                format!("@page {{ size: landscape }}\n@media print {{ table {{ font-size: {size:.1}pt }} }}\n")
            }
            Paper::List => String::new(),
        }
    }

    pub fn is_list(&self) -> bool {
        matches!(self, Paper::List)
    }
}

pub fn of(view: &View) -> Paper {
    let width = width(view) * CHARACTER * POINT_MM;
    let (portrait, landscape) = (PORTRAIT_MM / width, LANDSCAPE_MM / width);
    if portrait >= UPRIGHT_PT {
        Paper::Portrait(portrait.min(LARGEST_PT))
    } else if landscape >= SMALLEST_PT {
        Paper::Landscape(landscape.min(LARGEST_PT))
    } else {
        Paper::List
    }
}

/// Are the objects' names written upwards, so that columns are as narrow as their cells?
pub fn upwards(view: &View) -> bool {
    let longest = view.objects().iter().map(|object| object.name.len()).max().unwrap_or(0);
    view.objects().len() >= MANY_OBJECTS && longest as f64 > cell(view)
}

/// The whole table, in characters.
fn width(view: &View) -> f64 {
    let subject = |number: usize| LEVEL * view.depth(number).min(DEEPEST) as f64 + view.subjects()[number].name.len() as f64;
    let first = (0..view.subjects().len()).map(subject).fold(0.0, f64::max);
    let upwards = upwards(view);
    let head = |name: &str| if upwards { UPWARDS } else { name.len() as f64 };
    let columns = view.objects().iter().map(|object| head(object.name).max(cell(view)) + BESIDE);
    first + BESIDE + columns.sum::<f64>()
}

/// A cell: the longest action with its question mark, or a mark where there is one action.
fn cell(view: &View) -> f64 {
    if view.actions.len() == 1 {
        return MARK;
    }
    let longest = view.actions.iter().map(|&action| view.action(action).len()).max().unwrap_or(0);
    longest as f64 + 1.0 + FRAME
}
