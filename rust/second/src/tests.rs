//! Tests: the paper's worked numbers, both sides of its sentences, and random tapes.

mod answers;
mod bits;
mod blocks;
mod book;
mod cancel;
mod codec;
mod convert;
mod enter;
mod halt;
mod judge;
mod kit;
mod listing;
mod modify;
mod places;
mod plays;
mod purge;
mod replace;
mod ring;
mod status;
mod stocks;
mod table;
mod tapes;
mod taping;
mod tokens;
mod worked;
