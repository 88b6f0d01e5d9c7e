//! A voice that is given its frames one after the other and drawn from in any way, with calls that are refused between.

use crate::frames::Frame;
use crate::generator::Generator;
use crate::ours::SLOTS;
use crate::voice::Call;
use crate::voice_frames::{buffer, no_room, spoiled};
use crate::voice_sides::Sides;
use crate::voice_structs::Configuration;
use crate::voice_tally::Tally;

pub struct Speaker {
    sides: Sides,
    /// The frames to come, the next one last.
    frames: Vec<Frame>,
}

/// Lets voices speak to their ends, one or another at each call, in slots of their own.
pub fn speak(mut speakers: Vec<Speaker>, tally: &mut Tally, random: &mut Generator) {
    assert!(speakers.len() <= SLOTS);
    while !speakers.is_empty() {
        let place = random.below(speakers.len() as u64) as usize;
        let speaker = &mut speakers[place];
        speaker.step(tally, random);
        if speaker.is_done() {
            speaker.sides.compare(tally, "voice at its end");
            speakers.swap_remove(place);
        }
    }
}

impl Speaker {
    pub fn new(sides: Sides, mut frames: Vec<Frame>) -> Self {
        frames.reverse();
        Self { sides, frames }
    }

    fn is_done(&self) -> bool {
        self.frames.is_empty() && self.sides.rusts.left() == 0
    }

    /// Makes one call; after one of four the whole voices are compared.
    fn step(&mut self, tally: &mut Tally, random: &mut Generator) {
        let call = match self.sides.rusts.left() {
            0 => self.between(random),
            left => self.within(left, random),
        };
        self.sides.call(tally, &call);
        if random.below(4) == 0 {
            self.sides.compare(tally, "voice after a call");
        }
    }

    /// A call where nothing is left to draw: often the next frame.
    fn between(&mut self, random: &mut Generator) -> Call {
        let configuration = *self.sides.rusts.configuration();
        let next = self.frames.last().expect("a frame to come").clone();
        let (room, start) = buffer(configuration.fperiod + random.below(20) as usize, random);
        match random.below(20) {
            0 => any_draw(random),
            1 => Call::give(spoiled(&next, &configuration, random)),
            2 => Call::whole_frame(spoiled(&next, &configuration, random), room, start),
            3 => short(next, &configuration, random),
            4..12 => Call::give(self.frames.pop().expect("the next")),
            _ => Call::whole_frame(self.frames.pop().expect("the next"), room, start),
        }
    }

    /// A call where samples are left: mostly a draw, of all of them, of some, of none.
    fn within(&mut self, left: usize, random: &mut Generator) -> Call {
        let configuration = self.sides.rusts.configuration();
        let draw = |(buffer, start)| Call::draw(buffer, start);
        match (random.below(12), self.frames.last()) {
            (0, Some(next)) => Call::give(next.clone()),
            (1, Some(next)) => Call::give(spoiled(next, configuration, random)),
            (2, Some(next)) => {
                let (room, start) = buffer(configuration.fperiod, random);
                Call::whole_frame(next.clone(), room, start)
            }
            (3, Some(next)) => short(next.clone(), configuration, random),
            (4, _) => draw(no_room(random)),
            (5..9, _) => draw(buffer(1 + random.below(left as u64) as usize, random)),
            _ => draw(buffer(left + random.below(20) as usize, random)),
        }
    }
}

fn any_draw(random: &mut Generator) -> Call {
    let (buffer, start) = match random.below(2) {
        0 => no_room(random),
        _ => buffer(random.below(20) as usize, random),
    };
    Call::draw(buffer, start)
}

/// A whole frame into a buffer that is too short, or has no room at all.
fn short(frame: Frame, configuration: &Configuration, random: &mut Generator) -> Call {
    let (buffer, start) = match random.below(3) {
        0 => no_room(random),
        1 => buffer(configuration.fperiod - 1, random),
        _ => buffer(random.below(configuration.fperiod as u64) as usize, random),
    };
    Call::whole_frame(frame, buffer, start)
}
