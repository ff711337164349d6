//! Replays that are wrong on purpose: a program that agrees with one of them does not compare all that it
//! should.

use crate::reassembly_02::{COMPLETE, PASSED};
use crate::train_frames::{DONT, MORE, Made, ruled};
use crate::train_list::{Call, Origin, Replay, TrainList};
use crate::trains_of_others::captured;

const ANSWERS: [u8; 8] = [0, 1, 2, 3, 10, 11, 12, 13];

/// A replay with every answer in it.
fn every_answer() -> Replay {
    let payload = ruled(31, 45);
    let [first, middle] =
        [Made::part(&payload, 0, 16), Made::part(&payload, 16, 40)].map(|made| made.frame());
    let end = Made::last(&payload, 40).frame();
    let whole = Made::whole(DONT, ruled(32, 21));
    let other = Made {
        id: 0x1235,
        ..Made::part(&payload, 0, 16)
    }
    .frame();
    let mut replay = Replay::new();
    replay
        .stored(&end)
        .passes(&whole.frame(), &whole.data)
        .refused(11, "", &other);
    replay.stored(&first).refused(12, "", &first).refused(
        13,
        "",
        &Made::new(MORE, 6, ruled(33, 8)).frame(),
    );
    replay
        .refused(10, "", &first[..40])
        .passes(&Made::whole(0, Vec::new()).frame(), &[]);
    replay.completes(&middle, &payload).refused(11, "", &middle);
    assert_eq!(replay.lent(1, None).answer, 10);
    replay.releases();
    assert_eq!(replay.lent(3, Some(&middle)).answer, 10);
    replay.stored(&middle);
    replay
}

/// A payload that is nearly the one that was handed out.
fn wrong_payloads(payload: &[u8]) -> Vec<Vec<u8>> {
    let last = payload.len() - 1;
    let changed = [0, 1, 7, 8, 15, 16, last / 2, last].map(|at| {
        let mut changed = payload.to_vec();
        changed[at.min(last)] ^= 0x40;
        changed
    });
    let longer = [payload, &[0]].concat();
    let mut wrong: Vec<Vec<u8>> = changed.into();
    wrong.extend([
        payload[..last].to_vec(),
        payload[1..].to_vec(),
        longer,
        Vec::new(),
    ]);
    wrong
}

fn with_call(calls: &[Call], at: usize, call: Call) -> Vec<Call> {
    let mut calls = calls.to_vec();
    calls[at] = call;
    calls
}

pub fn list(list: &mut TrainList) {
    let replay = every_answer();
    let calls = &replay.calls;
    list.train(
        Origin::Hostile,
        "wrong on purpose: an answer, a payload, a frame, how the store is lent",
    );
    list.replay(&replay);
    for (at, call) in calls.iter().enumerate() {
        for answer in ANSWERS.into_iter().filter(|answer| *answer != call.answer) {
            list.spoiled(&with_call(
                calls,
                at,
                Call {
                    answer,
                    ..call.clone()
                },
            ));
        }
        let payloads = match call.payload[..] {
            [] => vec![ruled(31, 45)],
            _ => wrong_payloads(&call.payload),
        };
        for payload in payloads {
            list.spoiled(&with_call(
                calls,
                at,
                Call {
                    payload,
                    ..call.clone()
                },
            ));
        }
        if call.lent == 0 && call.answer != 10 {
            list.spoiled(&with_call(
                calls,
                at,
                Call {
                    lent: 1 + at % 7,
                    ..call.clone()
                },
            ));
        }
    }
    // The last byte of a frame that is stored differs.
    for (at, call) in calls
        .iter()
        .enumerate()
        .filter(|(_, call)| call.answer <= COMPLETE && call.answer != PASSED)
    {
        let mut frame = call.frame.clone().unwrap();
        *frame.last_mut().unwrap() ^= 1;
        let spoiled = with_call(
            calls,
            at,
            Call {
                frame: Some(frame),
                ..call.clone()
            },
        );
        if at < 9 {
            list.spoiled(&spoiled);
        }
    }

    let train = captured()
        .into_iter()
        .find(|train| train.payload.len() == 65_515)
        .unwrap();
    list.train(
        Origin::Ping,
        "wrong on purpose: one byte of the largest ping",
    );
    let frames: Vec<&[u8]> = train.frames.iter().map(Vec::as_slice).collect();
    let mut replay = Replay::new();
    replay.train(&frames, &train.payload);
    let at = frames.len() - 1;
    for byte in [0, 8, 1_479, 1_480, 33_000, 65_511, 65_514] {
        let mut payload = train.payload.clone();
        payload[byte] = payload[byte].wrapping_add(1);
        list.spoiled(&with_call(
            &replay.calls,
            at,
            Call {
                payload,
                ..replay.calls[at].clone()
            },
        ));
    }
    for cut in [1, 3, 35] {
        let payload = train.payload[..65_515 - cut].to_vec();
        list.spoiled(&with_call(
            &replay.calls,
            at,
            Call {
                payload,
                ..replay.calls[at].clone()
            },
        ));
    }
    // Two fragments with each other's bytes.
    let mut calls = replay.calls.clone();
    for (one, other) in [(3, 4), (20, 43)] {
        let exchanged = [&frames[one][..34], &frames[other][34..]].concat();
        calls[one].frame = Some(exchanged);
    }
    list.spoiled(&calls);
}
