//! What the comparison and demand 3 have to find in wrong drives and wrong halls, and what is printed of it.

use damper_check::bills::cover::BillCover;
use damper_check::bills::wrong as wrong_bills;
use damper_check::bills::{bills, Law};
use damper_check::check::Clause;
use damper_check::compare::lists;
use damper_check::cover::Cover;
use damper_check::halls::cover::HallCover;
use damper_check::halls::halls;
use damper_check::halls::wrong::{self as wrong_halls, Wrong};
use damper_check::wrong;

#[test]
fn wrong_drives_are_caught() {
    for wrong in wrong::ALL {
        assert!(wrong.is_caught(1), "{} by {:?}", wrong.name, wrong.by);
    }
}

#[test]
fn wrong_halls_are_caught() {
    for wrong in wrong_halls::ALL {
        assert!(wrong.caught(1, 200_000).is_some(), "{}", wrong.name);
    }
}

#[test]
fn wrong_bills_are_caught() {
    for wrong in wrong_bills::ALL {
        assert!(wrong.caught(1, 20_000).is_some(), "{}", wrong.name);
    }
}

/// The law named finds each of these by itself, in one bill or another.
#[test]
fn shares_break_laws() {
    for (name, law) in [
        ("LeftOverDropped", Law::Sum),
        ("LastCentDropped", Law::Sum),
        ("RoundedToNearest", Law::Sum),
        ("RoundedUp", Law::Sum),
        ("TotalCut", Law::Sum),
        ("UnmovedPayNothing", Law::Sum),
        ("UnmovedPayAlike", Law::Unmoved),
        ("ToTheFirst", Law::Unmoved),
        ("AllToTheFarthest", Law::Off),
        ("AllToTheLargest", Law::Off),
        ("AlikeToMovers", Law::Off),
        ("CountsCut", Law::Off),
        ("BrokenLeftOut", Law::Off),
        ("ToTheFarthest", Law::Order),
        ("ToTheFirstMovers", Law::Order),
        ("SmallestAbove0", Law::Order),
        ("RemaindersCut", Law::Order),
        ("TiesToHigher", Law::Order),
        ("TiesToFarthest", Law::Order),
    ] {
        assert!(wrong_bills::Wrong::named(name).breaks(law, 1, 20_000), "{name}");
    }
}

/// The moves alone find these.
#[test]
fn wrong_halls_miscount() {
    for name in [
        "HeldMoveNotCounted",
        "SentMoveNotCounted",
        "SilentMoveNotCounted",
        "BrokenTravels",
        "TravelWraps",
        "RestartClearsTravel",
    ] {
        assert!(Wrong::named(name).miscounted(1, 60_000), "{name}");
    }
}

/// The clause named finds each of these by itself, in one hall or another.
#[test]
fn shares_break_demand_3() {
    for (name, clause) in [
        ("PlaceForNumber", Clause::Move),
        ("LastDriveSkipped", Clause::Move),
        ("RefusedEventGiven", Clause::Move),
        ("TwiceAfterGiving", Clause::Move),
        ("PositionAndStatusExchanged", Clause::Content),
        ("OneUnderQuota", Clause::Turn),
        ("OneLessIfEqual", Clause::Turn),
        ("OneSent", Clause::Turn),
        ("NothingSent", Clause::Turn),
        ("HalfOfQuota", Clause::Turn),
        ("NewcomersHeld", Clause::Turn),
        ("EqualsAllHeld", Clause::Turn),
        ("NeverAll64", Clause::Turn),
        ("BrokenTakePlaces", Clause::Turn),
        ("BrokenLessenQuota", Clause::Turn),
        ("LowestGo", Clause::Turn),
        ("OthersByNumber", Clause::Turn),
        ("LowestAndByWait", Clause::Turn),
        ("ShortestFirst", Clause::Turn),
        ("HighestGo", Clause::Turn),
        ("WaitSigned", Clause::Turn),
        ("WaitWraps", Clause::Turn),
        ("HeldNotCounted", Clause::Turn),
        ("SentKeepsWait", Clause::Turn),
        ("NotDueSent", Clause::OnlyDue),
        ("HeldResetsSince", Clause::Waiting),
        ("SentKeepsSince", Clause::Spacing),
    ] {
        let found = |seed| Wrong::named(name).broken(seed, 60_000);
        assert!((1..30).filter_map(found).any(|breach| breach.has(clause)), "{name}");
    }
}

/// These keep every drive's turn: only the comparison finds them.
#[test]
fn wrong_halls_that_keep_the_turns() {
    for name in ["OneOverQuota", "AllSent", "LongestBySince", "WaitRisen", "TiesToHigher", "NotDueKeepsWait"]
    {
        for seed in 1..5 {
            assert!(Wrong::named(name).broken(seed, 60_000).is_none(), "{name}");
        }
    }
}

/// What is printed for a wrong drive is short enough to read.
#[test]
fn lists_are_short() {
    for name in ["TimeoutLess", "RunRoundedDown", "ReadAsReport"] {
        let finding = lists(wrong::named(name), 1, 100_000, &mut Cover::default());
        let finding = finding.expect_err("a finding");
        let events = finding.text.lines().next().expect("a list").split(' ').count();
        assert!(events < 20, "{finding}");
    }
}

/// So is what is printed for a wrong hall.
#[test]
fn calls_are_few() {
    for name in ["LastDriveSkipped", "NumberCutToByte", "BrokenTicked"] {
        let finding = halls(Wrong::named(name), 1, 60_000, &mut HallCover::default());
        let finding = finding.expect_err("a finding");
        let calls: usize = finding.text.split(' ').next().and_then(|n| n.parse().ok()).expect("a count");
        assert!(calls < 10, "{finding}");
    }
}

/// What is printed for a wrong bill has as few drives as show it.
#[test]
fn drives_are_few() {
    for (name, most) in [("TiesToHigher", 2), ("SmallestAbove0", 3), ("LeftOverDropped", 2), ("BillCut", 1)] {
        let wrong = wrong_bills::Wrong::named(name);
        let finding = bills(wrong, 1, 20_000, &mut BillCover::default()).expect_err("a finding");
        let counts = finding.text.lines().nth(1).expect("counts");
        assert!(counts.starts_with("  counts [") && counts.split(',').count() <= most, "{finding}");
    }
}

/// For a wrong page it is the call, the two lines that differ, and the drive.
#[test]
fn lines_are_shown() {
    let wrong = Wrong::named("CarriageReturn");
    let finding = halls(wrong, 1, 60_000, &mut HallCover::default()).expect_err("a finding");
    let lines: Vec<_> = finding.text.lines().collect();
    let [calls, call, numbers, model, subject, drive] = lines[..] else { panic!("{finding}") };
    assert!(calls.starts_with("1 calls on a hall of "), "{finding}");
    assert!(call.starts_with("  page of "), "{finding}");
    assert_eq!(numbers, "  model 0, subject 0");
    let shown = model.strip_prefix("  line 0: model   ").and_then(|shown| shown.strip_suffix(r#"\n""#));
    let shown = shown.unwrap_or_else(|| panic!("{finding}"));
    assert!(shown.starts_with("\" 0 ") && shown.len() == 29, "{finding}");
    assert_eq!(subject, format!(r#"  line 0: subject {shown}\r""#));
    assert!(drive.starts_with("  drive 0: Drive { "), "{finding}");
}
