//! Rights as text, by name: a first line `all` or `none`, then one line for each
//! right given or withheld. The format is set out in README.md.

use crate::calls::Engine;
use crate::term::{Rights, Script, Settings};

/// What a script is read with: the number of an edition, and all rights or those
/// of a text. A script that is refused has no names; its refusal does not depend
/// on the rights.
pub fn settings(script: &[u8], edition: u32, rights: Option<&str>) -> Result<Settings, String> {
    let all = Settings::all(edition);
    match (rights, Engine::default().read(script, &all)) {
        (Some(text), Ok(network)) => Ok(Settings {
            rights: parse(text, &network.script)?,
            ..all
        }),
        _ => Ok(all),
    }
}

/// The rights of a text, or what is wrong with it. Later lines go over earlier
/// ones.
pub fn parse(text: &str, script: &Script) -> Result<Rights, String> {
    let mut lines = text.lines();
    let mut rights = match lines.next() {
        Some("all") => Rights::all(),
        Some("none") => Rights::none(),
        _ => return Err("line 1 is neither all nor none".to_string()),
    };
    for (index, line) in lines.enumerate() {
        let wrong = || format!("line {} is not a right of the script", index + 2);
        change(&mut rights, script, line).ok_or_else(wrong)?;
    }
    Ok(rights)
}

/// The rights of the script's names as text. What stands past them is not shown.
pub fn print(rights: &Rights, script: &Script) -> String {
    let mut text = "all\n".to_string();
    let mut withhold = |sort: &str, location: &str, name: &str| {
        text.push_str(&format!("withhold {sort} {location} {name}\n"));
    };
    for (l, location) in script.locations.iter().enumerate() {
        for (c, channel) in script.channels.iter().enumerate() {
            if !rights.send(l, c) {
                withhold("send", location, channel);
            }
            if !rights.receive(l, c) {
                withhold("receive", location, channel);
            }
        }
        for (m, target) in script.locations.iter().enumerate() {
            if !rights.leave(l, m) {
                withhold("leave", location, target);
            }
        }
    }
    text
}

fn change(rights: &mut Rights, script: &Script, line: &str) -> Option<()> {
    let words: Vec<&str> = line.split(' ').collect();
    let [verb, sort, location, name] = words.as_slice() else {
        return None;
    };
    let given = match *verb {
        "give" => true,
        "withhold" => false,
        _ => return None,
    };
    let row = rights.rows.get_mut(script.location(location)?)?;
    let bit = match *sort {
        "send" => row.send.get_mut(script.channel(name)?)?,
        "receive" => row.receive.get_mut(script.channel(name)?)?,
        "leave" => row.leave.get_mut(script.location(name)?)?,
        _ => return None,
    };
    *bit = given;
    Some(())
}
