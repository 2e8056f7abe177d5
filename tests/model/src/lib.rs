//! The independent test side: a plain model of `rsmrun`, `rsmpage` and
//! `rsmorder`, the ledger, the generators of event files. Written from
//! document 01 and Req 01, 02, 03, 05, 06 and 07 of document 02 alone.
#![forbid(unsafe_code)]

pub mod cases;
pub mod check;
pub mod forecast;
pub mod forecast_check;
pub mod generate;
pub mod ledger;
pub mod lines;
pub mod mixes;
pub mod module;
pub mod order;
pub mod order_check;
pub mod page;
pub mod page_check;
pub mod pieces;
pub mod places;
pub mod player;
pub mod port_check;
pub mod random;
pub mod reached;
pub mod replay;
pub mod state;
pub mod straddle_check;
