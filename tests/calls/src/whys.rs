//! What is told of packets: how often each wording came, and with which form of place.

use reference::packet::Packet;
use reference::reason::Reason::{self, *};
use reference::why::{condition, status_name, Fault, Place, TAKEN};
use reference::Hub;
use std::collections::BTreeMap;

/// Counts of what was told, by wording and form of place.
pub type Whys = BTreeMap<(String, String), usize>;

/// The wording of a reason, its place left out.
pub fn wording(reason: Reason) -> String {
    format!("{}: {}", status_name(reason.status()), condition(reason))
}

/// The form of a place: records without their numbers.
fn form(place: Place) -> String {
    match place {
        Place::Nowhere => "no place".into(),
        Place::Octet(octet) => format!("octet {octet}"),
        Place::Record { .. } => "record K, octet N".into(),
        Place::Records(..) => "records A and B".into(),
    }
}

/// Counts what is told of a packet, if it is one.
pub fn note(whys: &mut Whys, hub: &Hub, packet: &[u8]) {
    if Packet::read(packet).is_none() {
        return;
    }
    let key = match hub.faults(packet).first() {
        Some(Fault { reason, place }) => (wording(*reason), form(*place)),
        None => (TAKEN.into(), "no place".into()),
    };
    *whys.entry(key).or_default() += 1;
}

/// The octets that a reason goes by, where its place is an octet outside of records.
fn octets(reason: Reason) -> &'static [usize] {
    match reason {
        UnknownCommand => &[0],
        HubIndex | ControllerIndex => &[2],
        WrongLength => &[4, 6, 7, 16],
        TooManyRecords => &[6, 7],
        DebugFlag | SettingValue | DiscoverableValue | StaticAddress => &[6],
        NameEnd | ZeroUuid | ZeroAddress | Instance => &[6],
        TimeoutGiven | TimeoutMissing | AdvertisingFlags => &[7],
        AddressType | ZeroForAll => &[12],
        Disconnect | Action | ActionForType => &[13],
        AdvertisingLength => &[15],
        ScanResponseLength => &[16],
        ShortNameEnd => &[255],
        _ => &[],
    }
}

/// The forms of place that a reason comes with.
fn forms(reason: Reason) -> Vec<String> {
    match reason {
        BrEdrType | LowEnergyType | RandomAddress | LinkKeyType | LongTermKeyType | Master | KeySize => {
            vec!["record K, octet N".into()]
        }
        Repeated => vec!["records A and B".into()],
        _ if octets(reason).is_empty() => vec!["no place".into()],
        _ => octets(reason).iter().map(|octet| format!("octet {octet}")).collect(),
    }
}

/// Every wording with each of its forms of place, and that a command would be taken.
pub fn expected() -> Vec<(String, String)> {
    let told =
        |reason: &Reason| forms(*reason).into_iter().map(|form| (wording(*reason), form)).collect::<Vec<_>>();
    let mut out: Vec<(String, String)> = Reason::ALL.iter().flat_map(told).collect();
    out.push((TAKEN.into(), "no place".into()));
    out
}
