//! Judges an input of `arpki check` through the C library, and writes what `arpki check` writes. What is accepted it also
//! pins, and judges by its pin.
#[allow(dead_code)]
mod arpki;

use arpki::{Answer, Asked, Client, Key, NotLearnt};

fn unhex(hex: &str) -> Option<Vec<u8>> {
    (0..hex.len()).step_by(2).map(|i| u8::from_str_radix(hex.get(i..i + 2)?, 16).ok()).collect()
}

fn hex(bytes: &[u8]) -> String {
    bytes.iter().map(|byte| format!("{byte:02x}")).collect()
}

/// What the lines ask, answered; `None` where they are malformed.
fn answer(input: &str) -> Option<String> {
    let fields = |word: &str| -> Vec<String> {
        let front = format!("{word} ");
        input.lines().filter_map(|line| line.strip_prefix(&front)).map(String::from).collect()
    };
    let counts = fields("logs").first()?.clone();
    let (logs, quorum) = counts.split_once(' ')?;
    let mut keys: Vec<Key> = Vec::new();
    for key in fields("key") {
        keys.push(unhex(&key)?.try_into().ok()?);
    }
    let logs: usize = logs.parse().ok()?;
    let authorities = keys.get(logs..)?.to_vec();
    keys.truncate(logs);
    let mut client = Client { logs: keys, authorities, learnt: Vec::new(), quorum: quorum.parse().ok()? };
    for note in fields("roll") {
        match client.learn(&unhex(&note)?) {
            Ok(()) | Err(NotLearnt { outcome: 1, .. }) => {}
            Err(_) => return None,
        }
    }
    let one = |word: &str| fields(word).first().cloned();
    let (name, epoch, age) = (one("name")?, one("now")?.parse().ok()?, one("age")?.parse().ok()?);
    let confirmation = unhex(&one("confirmation")?)?;
    let asked = Asked { name: name.as_bytes(), confirmation: &confirmation, epoch, age };
    let mut pin = Vec::new();
    client.follow(&asked, &mut pin, &[]);
    let judged = client.judge(&asked);
    assert_eq!(format!("{judged:?}"), format!("{:?}", client.follow(&asked, &mut pin, &[])));
    Some(match judged {
        Answer::Accepted { serial, certificate, epoch, root, .. } => format!(
            "accepted {name} serial {serial} epoch {epoch} root {} certificate {}", hex(&root), hex(&certificate)
        ),
        Answer::Absent { epoch, root } => format!("absent {name} epoch {epoch} root {}", hex(&root)),
        Answer::Refused(check) => format!("refused {check}"),
        other => format!("{other:?}"),
    })
}

fn main() {
    let path = std::env::args().nth(1).expect("a file");
    let input = std::fs::read_to_string(path).expect("the file can be read");
    println!("{}", answer(&input).expect("the input is of form"));
}
