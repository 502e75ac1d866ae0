//! A simple judge, as one would write it first from document 01: each event is compared with every earlier event of the
//! list, those that are closed by now included. It keeps no table of what is open.

mod accesses;
mod decode;
mod event;
mod list;
mod shape;

use list::List;
use shape::Shape;
use wrapper::Answer;

/// The answer of a trace file.
pub fn judge(file: &[u8]) -> Answer {
    judged(file).unwrap_or_else(|refusal| refusal)
}

fn judged(file: &[u8]) -> Result<Answer, Answer> {
    let shape = Shape::read(file)?;
    let mut list = List::with_room_for(shape.count);
    for (event, (kind, body)) in (0..).zip(shape.events()) {
        let decoded =
            decode::event(kind, body, shape.lengths).map_err(|fault| fault.answer(event))?;
        list.take(decoded)
            .map_err(|partner| Answer::Clash { event, partner })?;
    }
    Ok(Answer::Accepted {
        events: shape.count,
        peak: list.peak(),
    })
}
