//! Scenarios played by the library, called in C and in Rust, and held against the second program.

use gyodaebeun::{TEXT_BYTES, raw};
use second::scenario_text::scenario_text;
use second::{judge, scenario};

use crate::{Answer, Lent, by_library};

/// The bytes lent for the text, which are used again from file to file.
pub struct Player {
    text: Lent<u8>,
    /// As they are before each call.
    before: Lent<u8>,
}

/// What the text's bytes hold before a call, and those around them.
const BEFORE: u8 = 7;
const CANARY: u8 = 254;

/// With as many bytes as needed.
impl Default for Player {
    fn default() -> Player {
        Player::lending(TEXT_BYTES)
    }
}

impl Player {
    pub fn lending(length: usize) -> Player {
        let text = Lent::new(&vec![BEFORE; length], CANARY);
        Player {
            before: text.clone(),
            text,
        }
    }

    /// The text of a file, on which the library's C entry and its Rust entry agree, once it is held
    /// to be right.
    #[track_caller]
    pub fn played(&mut self, file: &[u8]) -> Vec<u8> {
        let (answer, text) = self.call(file);
        assert_eq!(answer, (0, 0), "{file:?}");
        match scenario::read(file) {
            Ok(scenario) if file.len() <= second::limits::INPUT => {
                let judged = judge::played(&scenario, &text);
                assert_eq!(judged, Ok(()), "{} of {file:?}", shown(&text));
            }
            _ => assert_eq!(shown(&text), shown(&scenario_text(file)), "of {file:?}"),
        }
        text
    }

    /// The answer, and the text that was written; nothing else is.
    #[track_caller]
    pub fn call(&mut self, file: &[u8]) -> (Answer, Vec<u8>) {
        let before = Lent::new(file, CANARY);
        let mut lent = before.clone();
        let mut report = [u32::MAX; 2];
        let number = raw::play_scenario(lent.cells(), self.text.cells(), &mut report);
        assert_eq!(lent, before, "the file was written to");
        let [place, length] = report;
        let text = self.taken(length as usize);

        let safe = gyodaebeun::play_scenario(file, self.text.cells());
        assert_eq!(by_library(safe), (number, place), "{file:?}");
        let again = self.taken(safe.unwrap_or(0));
        assert_eq!(shown(&again), shown(&text), "{file:?}");
        ((number, place), text)
    }

    /// What a call wrote, of this length; the bytes are then as before.
    #[track_caller]
    fn taken(&mut self, length: usize) -> Vec<u8> {
        assert!(self.text.changed_only(length, &self.before));
        let written = &mut self.text.cells()[..length];
        let text = written.to_vec();
        written.fill(BEFORE);
        text
    }
}

fn shown(text: &[u8]) -> String {
    String::from_utf8_lossy(text).into_owned()
}
