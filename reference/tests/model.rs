//! What 01 and CR 1 to CR 6 say of every rest, for each role (see `src/model.rs`): it holds at the rests of generated
//! sessions, and wrong variants of the rules are found out by it.

use reference::model::Model;
use reference::rules::Rules;
use reference::slips::Slip;

/// Answers, touches left, lists and quiet at the rests of sessions; `reference model SEED EVENTS` asks more.
#[test]
fn every_rest_is_as_the_requests_say() {
    for seed in [1, 2] {
        let model = Model::of(Rules::default(), seed, 40_000);
        println!("{model}");
        assert!(model.failures.is_empty(), "{model}");
        assert!(model.quiet > 5 && model.dark > 10, "{model}");
        for (answer, least) in [(0, 4000), (9, 4000), (30, 1000), (31, 40)] {
            assert!(model.events.of(answer) >= least, "{model}");
        }
    }
}

/// Each slip about roles and touches is found, and some others.
#[test]
fn wrong_rules_are_found() {
    let slips = [
        Slip::NoTouchUsed,
        Slip::OutermostTouchUsed,
        Slip::InnermostTouchUsed,
        Slip::RefusedTouchUsed,
        Slip::RefusedStepTaken,
        Slip::OutermostGateAsked,
        Slip::InnermostGateAsked,
        Slip::TouchesAskedFirst,
        Slip::RoleAskedFirst,
        Slip::ContinueAsksA,
        Slip::PickUsesTouch,
        Slip::TouchesAnew,
        Slip::SpentFails,
        Slip::SpentHasNoValue,
        Slip::ListForAnyone,
        Slip::SpentListed,
        Slip::InnermostGateLists,
        Slip::ViewOffers,
        Slip::ContinueShownUntried,
        Slip::MarksExchangedInList,
    ];
    for slip in slips {
        let model = Model::of(Rules::slipping(slip), 1, 400_000);
        println!("{slip:?}: found after {} events", model.events.total());
        assert!(!model.failures.is_empty(), "{slip:?}");
    }
}
