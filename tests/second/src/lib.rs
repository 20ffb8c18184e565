//! A second reader of PDIC Hyper dictionary images (versions 4 and 5, code order), written from
//! the papers and apart from the engine: an image is parsed to values, and the calls are
//! answered from the values. The second editor places changes on the values and renders them.
//! The programs `compare` (reading calls on many images) and `histories` (changing calls, one
//! after the other) hold them against the engine's C calls.

pub mod both;
pub mod calls;
pub mod cases;
pub mod damage;
pub mod drive;
pub mod editor;
pub mod engine;
pub mod history;
pub mod letters;
pub mod limits;
pub mod make;
pub mod pairs;
pub mod random;
pub mod reader;
pub mod seen;
pub mod start;
pub mod words;
