//! What the list expects of a case: the buffers that are lent, and the reference's answers.

use crate::case::Case;
use crate::file::File;
use reference::{Assembled, Counts, Refusal, refusals};

/// Number 0 for acceptance.
const ACCEPTED: Refusal = Refusal {
    number: 0,
    place: 0,
};

pub struct Expected {
    pub lengths: [usize; 8],
    pub sizing: Refusal,
    /// Entries, rows, cones, columns.
    pub counts: [usize; 4],
    pub assembly: Refusal,
    /// What the buffers hold, where the assembly's number is 0.
    pub held: Option<Assembled>,
}

impl Expected {
    /// The reference's answers.
    pub fn of(case: &Case) -> Self {
        let judged = judge(case);
        let counts = judged.as_ref().map_or(Counts::default(), Assembled::counts);
        let sizing = *judged.as_ref().err().unwrap_or(&ACCEPTED);
        let lengths = lengths(case, &judged);
        let assembled = judged.and_then(|out| assemble(case, out, &lengths));
        Self {
            lengths,
            sizing,
            counts: counts.numbers(),
            assembly: *assembled.as_ref().err().unwrap_or(&ACCEPTED),
            held: assembled.ok(),
        }
    }

    pub fn write(&self, file: &mut File) {
        self.lengths.iter().for_each(|&len| file.short(len));
        answer(file, self.sizing);
        self.counts.iter().for_each(|&count| file.short(count));
        answer(file, self.assembly);
        if let Some(held) = &self.held {
            self.write_held(file, held);
        }
        assert_eq!(self.held.is_some(), self.assembly.number == 0);
    }

    /// Lists of other lengths than the counts would shift all that follows.
    fn write_held(&self, file: &mut File, out: &Assembled) {
        let [entries, rows, cones, columns] = self.counts;
        let lengths = [out.row.len(), out.col.len(), out.val.len()];
        assert_eq!(lengths, [entries; 3]);
        assert_eq!((out.b.len(), out.q_object.len()), (rows, columns));
        assert_eq!([out.cones.kinds.len(), out.cones.dims.len()], [cones; 2]);
        file.longs(&out.row);
        file.longs(&out.col);
        file.floats(&out.val);
        file.floats(&out.b);
        out.cones.kinds.iter().for_each(|&kind| file.byte(kind));
        file.longs(&out.cones.dims);
        file.floats(&out.q_object);
        file.longs(&out.index);
    }
}

fn answer(file: &mut File, answer: Refusal) {
    file.short(answer.number as usize);
    file.short(answer.place as usize);
}

/// The reference's answer before the buffers; an unknown kind comes before everything.
fn judge(case: &Case) -> Result<Assembled, Refusal> {
    match case.unknown {
        Some((index, _)) if index < case.sample.count.min(16) => Err(Refusal {
            number: 40,
            place: index as u64,
        }),
        _ => reference::judge(&case.sample.problem()),
    }
}

/// The lengths that a judged problem needs, 0 where it is refused.
fn needed(judged: &Result<Assembled, Refusal>) -> [usize; 8] {
    let Ok(assembled) = judged else {
        return [0; 8];
    };
    let [e, rows, cones, columns] = assembled.counts().numbers();
    [e, e, e, rows, cones, cones, columns, assembled.index.len()]
}

/// The lengths that are lent.
fn lengths(case: &Case, judged: &Result<Assembled, Refusal>) -> [usize; 8] {
    let mut lengths = needed(judged).map(|len| len + case.longer);
    for &buffer in &case.short {
        lengths[buffer] -= 1;
    }
    lengths
}

/// Refusals 19, 28 and 20 over what was judged before.
fn assemble(case: &Case, out: Assembled, lengths: &[usize; 8]) -> Result<Assembled, Refusal> {
    let [seven @ .., index] = lengths;
    refusals::short_buffer(out.counts(), seven)?;
    refusals::short_index(case.sample.count, *index)?;
    refusals::not_finite(&out)?;
    Ok(out)
}
