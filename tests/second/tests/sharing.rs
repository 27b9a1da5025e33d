use super::*;

fn charging(case: Case, command: u8, request: u8) -> Case {
    case.byte(COMMAND, command).byte(REQUEST, request)
}

#[test]
fn wants() {
    check(After::command, &[
        // The least of request, rated amperes and command + 2.
        (6, |c| charging(c, 20, 100), 22), (6, |c| charging(c, 20, 21), 21), (6, |c| charging(c, 20, 20), 20),
        (6, |c| charging(c, 20, 5), 5), (6, |c| charging(c, 124, 255), 125), (6, |c| charging(c, 125, 255), 125),
        // The request of this tick; the tick of the move to 6 commands already.
        (6, |c| charging(c, 20, 0).hears(ENABLED), 22), (5, |c| c.hears(ENABLED), 2),
        // In 7, command − 10, at least 0; a stop is the first step. Elsewhere 0, at once.
        (7, |c| c.byte(COMMAND, 125), 115), (7, |c| c.byte(COMMAND, 11), 1), (7, |c| c.byte(COMMAND, 10), 0),
        (7, |c| c.byte(COMMAND, 3), 0), (6, |c| c.close(STOP_BUTTON), 10),
        (6, |c| c.open(PLUG), 0), (7, |c| c.byte(COMMAND, 100).age(30), 0),
        // 22 A at 400 V are 8,800 watts.
        (6, |c| c.allowance(8_800), 22), (6, |c| c.allowance(8_799), 21), (6, |c| c.allowance(400), 1),
        (6, |c| c.allowance(399), 0), (6, |c| c.allowance(0), 0), (7, |c| c.byte(COMMAND, 50).allowance(15_999), 39),
    ]);
}

#[test]
fn several_leads() {
    let commands = |leads: &[Case], allowance| -> Vec<u8> {
        let mut state = fresh(leads.len(), 400, 150)[..HEAD_BYTES].to_vec();
        leads.iter().for_each(|lead| state.extend(lead.state));
        let inputs: Vec<LeadInput> = leads.iter().map(|lead| lead.input).collect();
        done(&mut state, allowance, &inputs).iter().map(|output| output[output_place::COMMAND]).collect()
    };
    let (idle, low, high) = (Case::new(0), charging(Case::new(6), 25, 25), charging(Case::new(6), 150, 150));
    // Wants of 10,000 and 60,000 watts, of 60,000 twice, and of one lead among idle ones.
    assert_eq!(commands(&[low, high], 50_000), [25, 100]);
    assert_eq!(commands(&[high, high], 50_001), [62, 62]);
    assert_eq!(commands(&[idle, idle, high, idle], 60_000), [0, 0, 150, 0]);
}
