//! A model of the operations on bend charts, written sentence by sentence from
//! document 01 and from requests (i) to (v), (x), (xi) and (xii) of document 02, (iv) with
//! chapter 6 of document 004. It shares nothing with the library that it is compared
//! with.
//!
//! Each module's header names the heading of document 01 that it follows, and the
//! request where it rules instead.

pub mod answer;
pub mod changes;
pub mod chart;
pub mod closing;
pub mod cut;
pub mod cut_joined;
pub mod depth;
pub mod depth_parts;
pub mod depth_search;
pub mod draw;
pub mod edit;
pub mod edit_list;
pub mod fields;
pub mod follow;
pub mod join;
pub mod join_parts;
pub mod label;
pub mod label_parts;
pub mod line;
pub mod nearest;
pub mod nearest_search;
pub mod neighbours;
pub mod part;
pub mod plain_part;
pub mod plan;
pub mod random;
pub mod reader;
pub mod search;
pub mod shapes;
pub mod sheet;
pub mod text;
pub mod truth;
