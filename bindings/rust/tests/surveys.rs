//! Surveys through the library: each line, each refusal, and the same text by the calls that a survey is made of.

use haskumye::*;

const OWN: Address = [0x0a; 16];
const LOCAL: Address = [9; 16];

/// A relay with ports 0 to 2 on and one local address, saved later than it was fresh.
fn settings() -> Vec<u8> {
    let mut relay = Relay::fresh(&OWN);
    for port in 0..3 {
        relay.set_port(port, true, Mode::Boundary, LONGEST_PACKET).unwrap();
    }
    relay.add_local(&LOCAL).unwrap();
    relay.packet(&packet(b"late"), 0, 1 << 39, false, &mut [0; OUTPUT_SIZE]).unwrap();
    relay.save()
}

fn packet(payload: &[u8]) -> Vec<u8> {
    let mut output = [0; OUTPUT_SIZE];
    let length = write(&Parts { destination: LOCAL, ..Parts::default() }, payload, &mut output).unwrap();
    output[..length].to_vec()
}

/// Two packets by port 1, the first of them again, and noise.
fn recording() -> Vec<u8> {
    let (first, second) = (packet(b"first"), packet(b"second"));
    let recorded = |packet| Recorded { clock: 1_000, port: 1, signature: false, packet };
    let mut room = vec![0; RECORDING_SIZE];
    let length = write_recording(&[recorded(&first[..]), recorded(&second), recorded(&first), recorded(b"noise")], &mut room).unwrap();
    room[..length].to_vec()
}

/// The lines that tell something.
fn told(survey: &Survey) -> Vec<String> {
    let text = survey.text();
    let silent = |line: &&str| !line.ends_with("packets 0 in 0 out 0 dropped 0/1") && !(line.starts_with("reason") && line.ends_with(" 0"));
    text.lines().filter(silent).map(str::to_string).collect()
}

#[test]
fn a_survey_has_all_its_lines() {
    let survey = Survey::begin(&settings()).unwrap();
    let text = survey.text();
    assert_eq!(text.lines().count(), 1 + PORT_COUNT + 15);
    assert!(text.starts_with("survey\nport 0 packets 0 in 0 out 0 dropped 0/1\nport 1 ") && text.ends_with("reason 16 0\nreason 13 0\n"));
    assert_eq!(told(&survey), ["survey"]);
}

#[test]
fn each_recording_finds_a_fresh_relay() {
    let mut survey = Survey::begin(&settings()).unwrap();
    for times in 1..=3 {
        assert_eq!(survey.add(&recording()), Ok(()));
        let port = format!("port 1 packets {} in {} out 0 dropped 1/3", 3 * times, 73 * times);
        assert_eq!(told(&survey), ["survey".to_string(), port, format!("reason 2 {times}")]);
    }
}

#[test]
fn refused_recordings_are_told_and_a_17th_ends_it() {
    let mut survey = Survey::begin(&settings()).unwrap();
    let mut other = recording();
    other[0] = 2;
    assert_eq!(survey.add(&[]), Err(Refusal::FileLength));
    assert_eq!(survey.add(&other), Err(Refusal::FileKind));
    assert_eq!(survey.add(&recording()[..60]), Err(Refusal::FilePlace));
    for _ in 4..=RECORDING_LIMIT {
        assert_eq!(survey.add(&recording()), Ok(()));
    }
    let before = told(&survey);
    for file in [recording(), vec![]] {
        assert_eq!(survey.add(&file), Err(Refusal::SurveyFull));
    }
    let refused = ["recording 1 refused 20", "recording 2 refused 21", "recording 3 refused 22"];
    assert_eq!(before[1..4], refused);
    assert_eq!(told(&survey)[4..], [&["recording 17 refused 29".to_string()], &before[4..]].concat());
}

#[test]
fn settings_are_refused_as_a_load_is() {
    let whole = settings();
    let changed = |at: usize, byte: u8| {
        let mut file = whole.clone();
        file[at] = byte;
        file
    };
    for (file, refusal) in [
        (vec![], Refusal::FileLength),
        (changed(0, 1), Refusal::FileKind),
        (changed(7, 0), Refusal::FilePlace),
        (changed(88, 2), Refusal::FileBody),
    ] {
        assert_eq!(Survey::begin(&file).err(), Some(refusal));
    }
}
