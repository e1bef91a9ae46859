//! Tests of the lamp library through its C boundary. Nothing here shares text with the Rattle sources: `plain` is written from
//! document 01 and from section 2 of document 02, `practice` from section 1 of document 02, `history` and `values` from its section 4,
//! `catalogue` from its section 5, `explanation` from its section 7, and `groups` from its section 8.
pub mod acts;
pub mod areas;
pub mod boundary;
pub mod cards;
pub mod catalogue;
pub mod classes;
pub mod count_lists;
pub mod explanation;
pub mod faults;
pub mod groups;
pub mod history;
pub mod plain;
pub mod points;
pub mod practice;
pub mod random;
pub mod searches;
pub mod sequences;
pub mod shows;
pub mod values;
