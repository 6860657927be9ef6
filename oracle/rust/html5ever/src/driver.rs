// In place of html5ever's driver, which needs its tree builder: the names that lib.rs exports.
pub fn parse_document() {}

pub fn parse_fragment() {}

pub struct ParseOpts;

pub struct Parser;
