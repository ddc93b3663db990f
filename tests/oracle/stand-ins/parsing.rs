//! Stands in for the module `parsing` of the carried repository: no request reaches the parser.

use crate::chord::Chord;

pub struct Parser;

impl Parser {
    pub fn new() -> Self {
        Parser
    }

    pub fn parse(&mut self, _: &str) -> Result<Chord, String> {
        Err("the stand-in parses nothing".to_string())
    }
}
