//! Calls the C library through a C program that makes the calls (tests/c/serve.c), and compares answers and lent bytes
//! with the second program's.

use crate::case::{Answer, Case};
use crate::limits;
use honest_log::model::Kind;
use second::calls::{self, Arguments};
use second::sha256::sha256;
use std::io::{self, BufReader, Read, Write};
use std::path::Path;
use std::process::{Child, ChildStdin, ChildStdout, Command, Stdio};

#[derive(Clone, Copy, Debug, PartialEq, Eq)]
pub enum Call {
    Search = 0,
    Monitor = 1,
    SignedText = 2,
    Ladder = 3,
    Sha256 = 4,
}

impl Call {
    pub fn named(name: &str) -> Option<Call> {
        match name {
            "kt_search" => Some(Call::Search),
            "kt_monitor" => Some(Call::Monitor),
            "kt_signed_text" => Some(Call::SignedText),
            "kt_ladder" => Some(Call::Ladder),
            "kt_sha256" => Some(Call::Sha256),
            _ => None,
        }
    }
}

/// A call of the library and the bytes lent to it.
#[derive(Clone, Copy, Debug)]
pub struct Request<'a> {
    pub call: Call,
    /// The kind of a signed text, the version of a ladder.
    pub kind: u32,
    pub offset: u64,
    pub case: &'a Case,
    /// Lent for the value, the signed text, the versions, the digest.
    pub first: usize,
    /// Lent for the new state's text.
    pub second: usize,
    /// What is in the lent bytes before.
    pub filling: u8,
}

/// The answer, and the lent bytes afterwards.
#[derive(PartialEq, Eq)]
pub struct Reply {
    pub word: u64,
    pub first: Vec<u8>,
    pub second: Vec<u8>,
}

/// The bytes lent before a call, as the C program fills them.
fn filled(length: usize, filling: u8) -> Vec<u8> {
    (0..length)
        .map(|i| filling.wrapping_add((i as u8).wrapping_mul(31)))
        .collect()
}

/// What the second program answers.
pub fn plain(request: &Request) -> Reply {
    let inputs = &request.case.inputs;
    let arguments = Arguments {
        response: &inputs.response,
        settings: &inputs.settings,
        state: &inputs.state,
        identifier: &inputs.identifier,
        clock: inputs.clock,
        sheet: &inputs.sheet,
    };
    let mut first = filled(request.first, request.filling);
    let mut second = filled(request.second, request.filling);
    let word = match request.call {
        Call::Search => calls::search(&arguments, &inputs.signed, &mut first, &mut second),
        Call::Monitor => calls::monitor(&arguments, &inputs.signed, &mut second),
        Call::SignedText => {
            calls::signed_text(request.kind, &arguments, &mut first, request.offset)
        }
        Call::Ladder => calls::ladder(request.kind, &mut first),
        Call::Sha256 if request.first < 32 => 0,
        Call::Sha256 => {
            first[..32].copy_from_slice(&sha256(&inputs.response));
            32
        }
    };
    Reply {
        word,
        first,
        second,
    }
}

/// The reply that a known answer of a case asks for, given room for the new state.
pub fn known(request: &Request, answer: &Answer) -> Reply {
    let mut reply = Reply {
        word: 0,
        first: filled(request.first, request.filling),
        second: filled(request.second, request.filling),
    };
    match answer {
        Answer::Refused(number) => reply.word = u64::from(*number),
        Answer::Accepted(acceptance) => {
            let value = acceptance.value.as_deref().unwrap_or(&[]);
            let state = &acceptance.state;
            reply.word = (value.len() as u64) << 8 | (state.len() as u64) << 32;
            reply.first[..value.len()].copy_from_slice(value);
            reply.second[..state.len()].copy_from_slice(state);
        }
    }
    reply
}

/// Says how two replies differ.
pub fn difference(reply: &Reply, expected: &Reply) -> Option<String> {
    if reply.word != expected.word {
        return Some(format!(
            "answered {:#x}, not {:#x}",
            reply.word, expected.word
        ));
    }
    for (lent, got, wanted) in [
        ("first", &reply.first, &expected.first),
        ("second", &reply.second, &expected.second),
    ] {
        if let Some(i) = (0..wanted.len()).find(|&i| got[i] != wanted[i]) {
            return Some(format!(
                "byte {i} of the {lent} lent bytes is {:#04x}, not {:#04x}",
                got[i], wanted[i]
            ));
        }
    }
    None
}

/// The running C program.
pub struct Library {
    child: Child,
    requests: ChildStdin,
    replies: BufReader<ChildStdout>,
}

impl Library {
    pub fn start(program: &Path) -> io::Result<Library> {
        let mut child = Command::new(program)
            .stdin(Stdio::piped())
            .stdout(Stdio::piped())
            .spawn()?;
        let requests = child.stdin.take().expect("its input is a pipe");
        let replies = BufReader::new(child.stdout.take().expect("its output is a pipe"));
        Ok(Library {
            child,
            requests,
            replies,
        })
    }

    pub fn call(&mut self, request: &Request) -> io::Result<Reply> {
        let inputs = &request.case.inputs;
        let given = [
            &inputs.response,
            &inputs.settings,
            &inputs.state,
            &inputs.identifier,
            &inputs.sheet,
            &inputs.signed,
        ];
        let mut message = format!(
            "{} {} {} {} {}",
            request.call as u8, request.kind, inputs.clock, request.offset, request.filling
        )
        .into_bytes();
        for length in given
            .iter()
            .map(|bytes| bytes.len())
            .chain([request.first, request.second])
        {
            message.extend(format!(" {length}").bytes());
        }
        message.push(b'\n');
        for bytes in given {
            message.extend(bytes);
        }
        self.requests.write_all(&message)?;
        self.requests.flush()?;

        let mut word = [0; 8];
        self.replies.read_exact(&mut word)?;
        let mut first = vec![0; request.first];
        self.replies.read_exact(&mut first)?;
        let mut second = vec![0; request.second];
        self.replies.read_exact(&mut second)?;
        Ok(Reply {
            word: u64::from_le_bytes(word),
            first,
            second,
        })
    }

    /// Ends it; false if it did not end well.
    pub fn end(self) -> io::Result<bool> {
        let Library {
            mut child,
            requests,
            replies,
        } = self;
        drop(requests);
        drop(replies);
        Ok(child.wait()?.success())
    }
}

/// The calls that are made of a case: its own one, the same with other rooms, the signed text at different offsets, a
/// ladder and a digest. Which of them is chosen by the case's number.
pub fn requests(case: &Case, number: usize) -> Vec<Request<'_>> {
    let own = match case.inputs.kind {
        Kind::Search => Call::Search,
        Kind::Monitor => Call::Monitor,
    };
    let asked = Request {
        call: own,
        kind: own as u32,
        offset: 0,
        case,
        first: case.room,
        second: limits::STATE + number % 3,
        filling: (number * 7) as u8,
    };
    let signed = case.inputs.settings.len() + 40;
    let offset = number % 50;
    let text = |kind, first: usize, offset: u64| Request {
        call: Call::SignedText,
        kind,
        offset,
        first,
        second: 0,
        ..asked
    };
    let mut requests = vec![asked];
    requests.push(match number % 10 {
        // Too little room for the new state's text.
        0 => Request {
            second: limits::STATE - 1,
            ..asked
        },
        1 => Request {
            second: number % limits::STATE,
            ..asked
        },
        // Room for the value that is enough, exactly that of the largest, none, some.
        2 => Request {
            first: limits::VALUE,
            ..asked
        },
        3 => Request { first: 0, ..asked },
        4 => Request {
            first: number % 40,
            ..asked
        },
        // The other call.
        5 => Request {
            call: if own == Call::Search {
                Call::Monitor
            } else {
                Call::Search
            },
            ..asked
        },
        6 => Request {
            call: Call::Ladder,
            kind: (number as u32).wrapping_mul(0x9e37_79b9) >> (number / 10 % 32),
            first: 256 + number % 3,
            second: 0,
            ..asked
        },
        7 => Request {
            call: Call::Ladder,
            kind: u32::MAX - (number / 10 % 3) as u32,
            first: [256, 255, 300][number / 30 % 3],
            second: 0,
            ..asked
        },
        8 => Request {
            call: Call::Ladder,
            kind: (number / 10 % 40) as u32,
            first: number / 10 % 50,
            second: 0,
            ..asked
        },
        _ => Request {
            call: Call::Sha256,
            first: 30 + number / 10 % 5,
            second: 0,
            ..asked
        },
    });
    requests.push(match number % 8 {
        0 => text(own as u32, 2_100, 0),
        // Exactly enough room, one byte too little, one byte more.
        1 => text(own as u32, offset + signed, offset as u64),
        2 => text(own as u32, offset + signed - 1, offset as u64),
        3 => text(own as u32, offset + signed + 1, offset as u64),
        // Offsets at the end, past it, and far past it.
        4 => text(own as u32, signed, signed as u64),
        5 => text(own as u32, signed, u64::MAX - (number % 100) as u64),
        // The other kind, and numbers that are no kind.
        6 => text(1 - own as u32, 2_100, offset as u64),
        _ => text([2, 256, u32::MAX][number / 8 % 3], 2_100, offset as u64),
    });
    requests
}
