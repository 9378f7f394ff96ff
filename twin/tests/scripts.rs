//! The generator: the same seed gives the same script, and no script leads to a state that the next call refuses.

use std::process::Command;

use twin::{packet, read_item, read_service_item, Item, Pump, ANSWER_ROOM};

/// A bench script, or one of another kind.
fn script(seed: u32, lines: u32, kind: Option<&str>) -> Vec<u8> {
    let mut generator = Command::new(env!("CARGO_BIN_EXE_scripts"));
    generator.args([seed.to_string(), lines.to_string()]);
    generator.args(kind);
    let output = generator.output().unwrap();
    assert!(output.status.success());
    output.stdout
}

#[test]
fn same_seed_same_script() {
    let kinds = [None, Some("service"), Some("safe")];
    for kind in kinds {
        assert_eq!(script(5, 120, kind), script(5, 120, kind));
        assert_ne!(script(5, 120, kind), script(6, 120, kind));
    }
    assert_ne!(script(5, 120, kinds[0]), script(5, 120, kinds[1]));
    assert_ne!(script(5, 120, kinds[1]), script(5, 120, kinds[2]));
}

#[test]
fn no_call_leaves_an_unsound_state() {
    for seed in 1000..1020 {
        let mut pump = Pump::new();
        for line in script(seed, 150, None).split(|&b| b == b'\n') {
            sound_after(&mut pump, read_item(line));
            send(&mut pump, b"\r");
        }
        for kind in ["service", "safe"] {
            let mut pump = Pump::new();
            for line in script(seed, 150, Some(kind)).split(|&b| b == b'\n') {
                sound_after(&mut pump, read_service_item(line));
            }
        }
    }
}

fn sound_after(pump: &mut Pump, item: Item) {
    match item {
        Item::Text(text) => send(pump, text),
        Item::Bytes(bytes) => send(pump, &bytes),
        Item::Packet(data) => send(pump, &packet(data)),
        Item::Edge(pin, level) => assert_ne!(pump.pin(pin, level).refusal, 4),
        // Long ones are played only so far, because each tick tests the whole state.
        Item::Ticks(ticks) => (0..ticks.min(30_000)).for_each(|_| assert_eq!(pump.tick(&mut [0; 24]).refusal, 0)),
        Item::Bad => {}
    }
    assert!(pump.is_sound());
}

fn send(pump: &mut Pump, bytes: &[u8]) {
    for &byte in bytes {
        pump.byte(byte, &mut [0; ANSWER_ROOM]);
        assert!(pump.is_sound());
    }
}
