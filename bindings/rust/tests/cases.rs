//! The cases that `tests/libraries/cases.py` writes: read from the file that `RTR_CASES` names, or
//! computed by python3. Without python3 nothing is tested here.

mod computed;

use rtr_wire::{normalise, normalise_for, same_meaning, Fault, Progress, Side, Stopped, Units};

/// One case.
struct Case {
    version: Option<u8>,
    status: u8,
    detail: u8,
    units: u64,
    forms: u64,
    taken: usize,
    input: Vec<u8>,
    form: Vec<u8>,
}

/// The cases, or none if they can't be computed.
fn cases() -> Vec<Case> {
    let bytes = computed::cases("RTR_CASES", "libraries/cases.py", &["--inputs", "300"]);
    let bytes = bytes.unwrap_or_default();
    let mut rest = &bytes[..];
    let mut all = Vec::new();
    while !rest.is_empty() {
        let (head, after) = rest.split_at(3);
        let (numbers, after) = after.split_at(40);
        let number =
            |at: usize| u64::from_le_bytes(numbers[8 * at..8 * at + 8].try_into().unwrap());
        let (input, after) = after.split_at(number(3) as usize);
        let (form, after) = after.split_at(number(4) as usize);
        rest = after;
        all.push(Case {
            version: (head[0] != 255).then_some(head[0]),
            status: head[1],
            detail: head[2],
            units: number(0),
            forms: number(1),
            taken: number(2) as usize,
            input: input.to_vec(),
            form: form.to_vec(),
        });
    }
    assert!(!all.is_empty());
    all
}

/// The status and the detail of a fault, as `rtr.h` numbers them.
fn numbers(fault: Fault) -> (u8, u8) {
    (fault.status(), computed::detail(fault))
}

impl Case {
    /// Calls `normalise`, or `normalise_for` if the case is for one version.
    fn normalised(&self, input: &[u8], output: &mut [u8], limit: u64) -> Result<Progress, Stopped> {
        match self.version {
            None => normalise(input, output, limit),
            Some(version) => normalise_for(input, output, limit, version),
        }
    }

    /// A length that always suffices for the output.
    fn room(&self) -> usize {
        self.input.len() + self.version.map_or(0, |_| 12)
    }

    /// Runs the case as one call.
    fn check_whole(&self) {
        let mut output = vec![0; self.room()];
        let (progress, ended) = match self.normalised(&self.input, &mut output, u32::MAX.into()) {
            Ok(progress) => (progress, (0, 0)),
            Err(stopped) => (stopped.progress, numbers(stopped.fault)),
        };
        assert_eq!(ended, (self.status, self.detail));
        assert_eq!((progress.units, progress.forms), (self.units, self.forms));
        assert_eq!(progress.taken, self.taken);
        assert_eq!(output[..progress.written], self.form);
    }

    /// In steps, with a short output and few units at a time: the result is the same.
    fn check_in_turns(&self) {
        let (mut form, mut units, mut taken, mut room) = (Vec::new(), 0, 0, 16);
        let ended = loop {
            let mut output = vec![0; room];
            let end = self.normalised(&self.input[taken..], &mut output, 3);
            let progress = match end {
                Ok(progress) => progress,
                Err(stopped) => stopped.progress,
            };
            form.extend_from_slice(&output[..progress.written]);
            units += progress.units;
            taken += progress.taken;
            match end.map_err(|stopped| stopped.fault) {
                Ok(_) => break (0, 0),
                Err(Fault::NoRoom) if progress.taken == 0 => room *= 2,
                Err(Fault::NoRoom | Fault::TooMany) => {}
                Err(fault) => break numbers(fault),
            }
        };
        assert_eq!(ended, (self.status, self.detail));
        assert_eq!((units, taken), (self.units, self.taken));
        assert_eq!(form, self.form);
    }

    /// An output as long as the canonical form suffices, and an output one byte shorter doesn't. A
    /// limit of exactly the number of units doesn't suffice either.
    fn check_bounds(&self) {
        let mut output = vec![0; self.form.len()];
        let short = self.form.len() - 1;
        let stopped = self.normalised(&self.input, &mut output[..short], self.units + 1);
        let Stopped { progress, fault } = stopped.unwrap_err();
        assert_eq!(fault, Fault::NoRoom);
        assert!(progress.taken < self.taken);
        assert_eq!(output[..progress.written], self.form[..progress.written]);
        let stopped = self.normalised(&self.input, &mut output, self.units);
        let Stopped { progress, fault } = stopped.unwrap_err();
        assert_eq!((fault, progress.units), (Fault::TooMany, self.units));
        let progress = self.normalised(&self.input, &mut output, self.units + 1);
        assert_eq!(progress.map(|progress| progress.taken), Ok(self.taken));
        assert_eq!(output, self.form);
    }
}

#[test]
fn sequences() {
    for case in cases() {
        case.check_whole();
    }
}

#[test]
fn in_threads() {
    let all = cases();
    std::thread::scope(|scope| {
        for _ in 0..8 {
            scope.spawn(|| all.iter().for_each(Case::check_whole));
        }
    });
}

#[test]
fn in_turns() {
    for case in cases().iter().filter(|case| case.input.len() < 1 << 16) {
        case.check_in_turns();
    }
}

#[test]
fn little_room_and_few_units() {
    for case in cases().iter().filter(|case| case.status == 0) {
        case.check_bounds();
    }
}

#[test]
fn unit_by_unit() {
    for case in cases().iter().filter(|case| case.version.is_none()) {
        let mut form = Vec::new();
        let mut units = Units::sequence(&case.input, u64::MAX);
        let mut ended = (0, 0);
        for unit in units.by_ref() {
            match unit {
                Ok(unit) => {
                    let mut output = vec![0; 65535];
                    let size = unit
                        .write(&mut output)
                        .expect("a unit that was read has a form");
                    form.extend_from_slice(&output[..size]);
                }
                Err(fault) => ended = numbers(fault),
            }
        }
        assert_eq!(ended, (case.status, case.detail));
        assert_eq!(units.offset(), case.taken);
        assert_eq!(form, case.form);
        assert!(units.next().is_none());
    }
}

#[test]
fn meanings() {
    // An end of data of version 0 alone.
    let end = [0, 7, 0, 1, 0, 0, 0, 12, 0, 0, 0, 2];
    for case in cases().iter().filter(|case| case.version.is_none()) {
        let left = same_meaning(&case.input, &case.form, u32::MAX.into());
        let right = same_meaning(&end, &case.input, u32::MAX.into());
        if case.status == 0 {
            assert_eq!(left, Ok(true));
            assert_eq!(right, Ok(case.form == end));
        } else {
            for (answer, side, text) in
                [(left, Side::First, "left"), (right, Side::Second, "right")]
            {
                let error = answer.expect_err("the case has a fault");
                assert_eq!(numbers(error.fault), (case.status, case.detail));
                assert_eq!(error.place.side, side);
                assert_eq!(error.place.offset, case.taken);
                let text = format!(
                    "{}, at byte {} of the {text} input",
                    error.fault, case.taken
                );
                assert_eq!(error.to_string(), text);
            }
        }
    }
}
