//! 8.6: every clause of every condition, true and false for its own reason.
//! Tables are set by hand, so that rows that the first edition never sets
//! (start times, optional, abort_condition) are tried too.

use crate::hand::{family, Hand, A, B, C, P, ROOT, WAITS};
use second::component::{Class, Component, Property};
use second::guideline::TaskState::{Completed, Discarded, Dormant, InProgress};
use second::tables::RowValue;

/// The family with the root and p in progress.
fn running(p: &str, component: &str, c: &str) -> Hand {
    family("", p, component, c).state(ROOT, InProgress).state(P, InProgress)
}

#[test]
fn initialise_1_a_completed_task_is_triggered_again() {
    let again = running("", "", "").state(C, Completed).truth(C, Property::TriggerActive, true);
    assert!(again.initialise(C));
    assert!(!again.state(C, InProgress).initialise(C), "not completed");
    assert!(!again.state(C, Dormant).initialise(C), "not completed");
    assert!(!again.truth(C, Property::TriggerActive, false).initialise(C), "not triggered");
    assert!(!again.without(C, Property::TriggerActive).initialise(C), "never triggered");
    assert!(!again.truth(C, Property::Terminal, true).initialise(C), "terminal");
    assert!(again.truth(C, Property::Terminal, false).initialise(C), "terminal :: no");
}

#[test]
fn initialise_2_the_plan_above_starts_or_is_initialised() {
    let started = family("", "", "", "").state(ROOT, InProgress);
    assert!(started.start(P) && !started.initialise(P));
    assert!(started.initialise(C), "p starts");
    assert!(started.state(C, Completed).initialise(C), "whatever the task's own state");
    let fresh = family("", "", "", "");
    assert!(fresh.start(ROOT) && fresh.initialise(P) && !fresh.start(P));
    assert!(fresh.initialise(C), "p is initialised");
    assert!(!fresh.initialise(ROOT), "the root has no plan above it");
    assert!(!running("", "", "").initialise(C), "p does neither");
    assert!(!running("", "", "").state(P, Discarded).initialise(C), "p does neither");
}

#[test]
fn start_1_the_plan_above_is_in_progress() {
    let ready = running("", "", "");
    assert!(ready.start(C));
    for state in [Dormant, Completed, Discarded] {
        assert!(!ready.state(P, state).start(C), "p is not in progress");
    }
    assert!(family("", "", "", "").start(ROOT), "the root needs no plan above it");
}

#[test]
fn start_2a_is_scheduled_and_has_no_trigger() {
    assert!(running("", "", "").start(C));
    assert!(!running("", "", "").state(C, Completed).start(C), "not scheduled: not dormant");
    assert!(!running("", "", "trigger::rain;").start(C), "has a trigger");
    assert!(!running("", "", "trigger::'';").start(C), "has an empty trigger");
}

#[test]
fn start_2b_is_triggered_and_dormant() {
    let held_back = running("", WAITS, "trigger::rain;precondition::1=2;wait_condition::1=2;");
    let triggered = held_back.truth(C, Property::TriggerActive, true);
    assert!(triggered.start(C), "precondition, wait_condition and antecedents play no part");
    assert!(!triggered.truth(C, Property::TriggerActive, false).start(C));
    assert!(!held_back.start(C));
    for state in [InProgress, Completed, Discarded] {
        assert!(!triggered.state(C, state).start(C), "not dormant");
    }
    assert!(!triggered.state(P, Completed).start(C), "clause 1 is asked too");
}

#[test]
fn start_2c_its_start_time_has_come() {
    let waiting = running("", "", "").state(C, Completed).start_at(C, 5);
    assert!(waiting.time(5).start(C));
    assert!(waiting.time(6).start(C));
    assert!(!waiting.time(4).start(C));
    let unknown = waiting.row(Component::task(C), Property::StartAt, RowValue::UNKNOWN);
    assert!(!unknown.time(6).start(C), "unknown is no number");
    assert!(!waiting.state(P, Completed).time(5).start(C), "clause 1 is asked too");
}

#[test]
fn discard_1_with_the_plan_that_ends() {
    let ends = running("terminate::1=1;", "", "trigger::rain;");
    assert!(ends.state(C, InProgress).discard(C));
    assert!(ends.state(C, Dormant).discard(C));
    assert!(!ends.state(C, Completed).discard(C), "completed, and no start time");
    assert!(ends.state(C, Completed).start_at(C, 9).discard(C), "completed, with a start time");
    assert!(!ends.state(C, Discarded).start_at(C, 9).discard(C));
    assert!(!ends.state(P, Completed).state(C, InProgress).discard(C), "p is not in progress");
    let goes_on = running("terminate::1=2;", "", "trigger::rain;");
    assert!(!goes_on.state(C, InProgress).discard(C));
}

#[test]
fn discard_1_with_the_plan_that_is_discarded() {
    let ends = family("terminate::1=1;", "", "", "").state(ROOT, InProgress).state(P, InProgress);
    assert!(ends.discard(P), "i, for p by ii: the root terminates");
    assert!(ends.state(C, InProgress).discard(C), "i: p is discarded");
    assert!(!ends.termination(P), "ii plays no part for c");
    assert!(!ends.state(P, Dormant).state(C, Dormant).discard(C), "p is not in progress");
}

#[test]
fn discard_1_the_root_has_no_plan_that_could_discard_it() {
    assert!(!family("terminate::1=1;", "", "", "").state(ROOT, InProgress).discard(ROOT));
}

#[test]
fn discard_2a_no_plan_above_or_one_in_progress() {
    let root = family("precondition::1=2;", "", "", "");
    assert!(root.discard(ROOT), "i");
    let below = running("", "", "precondition::1=2;");
    assert!(below.discard(C), "ii");
    assert!(!below.state(P, Completed).discard(C));
    assert!(!below.state(P, Dormant).discard(C));
}

#[test]
fn discard_2b_is_dormant() {
    let fails = running("", "", "precondition::1=2;");
    for state in [InProgress, Completed, Discarded] {
        assert!(!fails.state(C, state).discard(C));
    }
}

#[test]
fn discard_2c_its_schedule_has_come() {
    let waits = running("", WAITS, "precondition::1=2;").state(A, Completed);
    assert!(waits.state(B, Discarded).discard(C));
    assert!(!waits.state(B, InProgress).discard(C), "b is not over");
    assert!(!running("", "", "wait_condition::1=2;precondition::1=2;").discard(C), "it waits");
}

#[test]
fn discard_2c_i_all_antecedents_discarded() {
    let waits = running("", WAITS, "");
    assert!(waits.state(A, Discarded).state(B, Discarded).discard(C));
    assert!(!waits.state(A, Discarded).state(B, Completed).discard(C));
    assert!(!running("", "", "").discard(C), "an empty sequence does not count");
}

#[test]
fn discard_2c_ii_the_precondition_is_not_true() {
    assert!(running("", "", "precondition::1=2;").discard(C), "false");
    assert!(running("", "", "precondition::is_dormant(nobody);").discard(C), "unknown");
    assert!(!running("", "", "precondition::1=1;").discard(C), "true");
    assert!(!running("", "", "").discard(C), "there is none");
}

#[test]
fn discard_3_is_aborted() {
    let runs = running("", "", "").state(C, InProgress);
    let aborts = runs.condition(C, Property::AbortCondition, "1=1");
    assert!(aborts.discard(C));
    assert!(!aborts.state(C, Dormant).discard(C), "not in progress");
    assert!(!runs.condition(C, Property::AbortCondition, "1=2").discard(C));
    assert!(!runs.discard(C), "there is none");
}

#[test]
fn complete_1_is_in_progress() {
    let done = running("", "", "").state(C, InProgress).truth(C, Property::Confirmed, true);
    assert!(done.complete(C));
    for state in [Dormant, Completed, Discarded] {
        assert!(!done.state(C, state).complete(C));
    }
}

/// An enquiry, task 1, in progress, with sources for the items 0 and 1.
fn enquiry(first: &str, second: &str) -> Hand {
    let text = format!(
        "plan::root;component::q;end plan.enquiry::q;source::x;{first}source::y;{second}end enquiry.\
         data::x;type::integer;end data.data::y;type::real;end data."
    );
    Hand::of(&text).state(0, InProgress).state(1, InProgress)
}

#[test]
fn complete_2_has_its_mandatory_sources() {
    let asks = enquiry("mandatory::yes;", "");
    assert!(asks.requested(0, false).complete(1));
    assert!(!asks.requested(0, true).complete(1));
    assert!(!asks.complete(1), "never requested is not answered either");
    assert!(asks.requested(0, false).requested(1, true).complete(1), "y is not mandatory");
    assert!(enquiry("mandatory::no;", "").requested(0, true).complete(1));
    let both = enquiry("mandatory::yes;", "mandatory::yes;").requested(0, false);
    assert!(!both.requested(1, true).complete(1), "every one of them");
    assert!(both.requested(1, false).complete(1));
    let text = "plan::root;component::q;end plan.enquiry::q;end enquiry.";
    assert!(Hand::of(text).state(0, InProgress).state(1, InProgress).complete(1), "there are none");
}

#[test]
fn complete_3_is_confirmed_if_it_must_be() {
    let runs = running("", "", "").state(C, InProgress);
    assert!(runs.truth(C, Property::Confirmed, true).complete(C));
    assert!(!runs.truth(C, Property::Confirmed, false).complete(C));
    assert!(!runs.complete(C));
    assert!(runs.truth(C, Property::Confirmatory, false).complete(C));
    assert!(runs.without(C, Property::Confirmatory).complete(C));
}

/// The plan p with a and b over, and c to be tried.
fn all_but_c(c: &str) -> Hand {
    running("", "", c).state(A, Completed).state(B, Discarded)
}

#[test]
fn complete_5_i_its_components_are_over() {
    assert!(all_but_c("").state(C, Completed).complete(P));
    assert!(all_but_c("").state(C, Discarded).complete(P));
    let dormant = all_but_c("trigger::rain;").state(C, Dormant);
    assert!(!dormant.start(C) && !dormant.discard(C) && !dormant.initialise(C));
    assert!(!dormant.complete(P), "c is neither completed, discarded nor optional");
    assert!(dormant.truth(C, Property::Optional, true).complete(P));
    assert!(!dormant.truth(C, Property::Optional, false).complete(P));
}

#[test]
fn complete_5_ii_no_component_is_in_progress() {
    let runs = all_but_c("").state(C, InProgress).truth(C, Property::Optional, true);
    assert!(!runs.complete(P));
}

#[test]
fn complete_5_iii_no_component_starts() {
    let starts = all_but_c("").truth(C, Property::Optional, true);
    assert!(starts.start(C) && !starts.discard(C) && !starts.initialise(C));
    assert!(!starts.complete(P));
}

#[test]
fn complete_5_iv_no_component_is_discarded() {
    let leaves = all_but_c("trigger::rain;precondition::1=2;").truth(C, Property::Optional, true);
    assert!(!leaves.start(C) && leaves.discard(C) && !leaves.initialise(C));
    assert!(!leaves.complete(P));
}

#[test]
fn complete_5_v_no_component_is_initialised() {
    let again = all_but_c("trigger::rain;").state(C, Completed).truth(C, Property::TriggerActive, true);
    assert!(!again.start(C) && !again.discard(C) && again.initialise(C));
    assert!(!again.complete(P));
}

#[test]
fn complete_5_vi_no_component_has_a_start_time() {
    let waits = all_but_c("").state(C, Completed).start_at(C, 9);
    assert!(!waits.start(C) && !waits.discard(C) && !waits.initialise(C));
    assert!(!waits.complete(P));
    let unknown = waits.row(Component::task(C), Property::StartAt, RowValue::UNKNOWN);
    assert!(unknown.complete(P));
}

#[test]
fn complete_5_is_asked_of_a_plan_s_own_components() {
    let empty = Hand::of("plan::root;end plan.").state(0, InProgress);
    assert!(empty.complete(0), "a plan without components");
    let over = family("", "", "", "").state(ROOT, InProgress).state(P, Completed);
    assert!(over.complete(ROOT), "c, which is dormant, is no component of the root");
    let plan = running("", "", "");
    assert!(!plan.complete(P));
    let no_plan = plan.row(Component::task(P), Property::Class, RowValue::Class(Class::Enquiry));
    assert!(no_plan.complete(P), "only of a plan");
}

#[test]
fn scheduled_start_1_is_dormant() {
    assert!(running("", "", "").scheduled_start(C));
    for state in [InProgress, Completed, Discarded] {
        assert!(!running("", "", "").state(C, state).scheduled_start(C));
    }
}

#[test]
fn scheduled_start_2_its_schedule_has_come() {
    let waits = running("", WAITS, "").state(A, Completed);
    assert!(waits.state(B, Completed).scheduled_start(C));
    assert!(!waits.state(B, InProgress).scheduled_start(C));
    assert!(!running("", "", "wait_condition::1=2;").scheduled_start(C));
}

#[test]
fn scheduled_start_3_an_antecedent_has_completed() {
    let waits = running("", WAITS, "").state(A, Discarded);
    assert!(waits.state(B, Completed).scheduled_start(C), "one is enough");
    assert!(!waits.state(B, Discarded).scheduled_start(C));
}

#[test]
fn scheduled_start_4_the_precondition_is_true() {
    assert!(running("", "", "precondition::1=1;").scheduled_start(C));
    assert!(!running("", "", "precondition::1=2;").scheduled_start(C));
    assert!(!running("", "", "precondition::is_dormant(nobody);").scheduled_start(C), "unknown");
}

#[test]
fn schedule_1_the_antecedents_are_over() {
    let waits = running("", WAITS, "").state(A, Completed);
    assert!(waits.state(B, Completed).schedule(C));
    assert!(waits.state(B, Discarded).schedule(C));
    assert!(!waits.state(B, InProgress).schedule(C), "a");
    assert!(!waits.state(B, Dormant).schedule(C), "a");
    assert!(!waits.state(B, Completed).start_at(B, 9).schedule(C), "b");
    assert!(running("", "", "").schedule(C), "there are none");
}

#[test]
fn schedule_2_the_wait_condition_is_true() {
    assert!(running("", "", "wait_condition::1=1;").schedule(C));
    assert!(!running("", "", "wait_condition::1=2;").schedule(C));
    assert!(!running("", "", "wait_condition::is_dormant(nobody);").schedule(C), "unknown");
}

#[test]
fn cycle_1_more_cycles_are_wanted() {
    let task = Component::task(C);
    let counted = running("", "", "").row(task, Property::CycleCount, RowValue::integer(1));
    assert!(counted.row(task, Property::NbrCyclesValue, RowValue::integer(2)).cycle(C));
    assert!(!counted.row(task, Property::NbrCyclesValue, RowValue::integer(1)).cycle(C));
    assert!(!counted.row(task, Property::NbrCyclesValue, RowValue::UNKNOWN).cycle(C));
    assert!(!counted.cycle(C), "no number of cycles");
    let wanted = running("", "", "").row(task, Property::NbrCyclesValue, RowValue::integer(2));
    assert!(!wanted.cycle(C), "no count");
}

#[test]
fn cycle_2_not_until_is_true() {
    let task = Component::task(C);
    let more = running("", "", "").row(task, Property::CycleCount, RowValue::integer(1)).row(
        task,
        Property::NbrCyclesValue,
        RowValue::integer(2),
    );
    assert!(more.condition(C, Property::CycleUntil, "1=2").cycle(C));
    assert!(!more.condition(C, Property::CycleUntil, "1=1").cycle(C));
}

#[test]
fn termination_1_terminate_is_true() {
    assert!(running("terminate::1=1;", "", "").termination(P));
    assert!(!running("terminate::1=2;", "", "").termination(P));
    assert!(!running("terminate::is_dormant(nobody);", "", "").termination(P), "unknown");
    assert!(!running("", "", "").termination(P), "there is none");
}

#[test]
fn termination_2_a_terminal_component_has_completed() {
    let completed = running("", "", "").state(C, Completed);
    assert!(!completed.termination(P), "the completed task must be terminal");
    assert!(completed.truth(C, Property::Terminal, true).termination(P));
    assert!(!completed.truth(C, Property::Terminal, false).termination(P));
    for state in [Dormant, InProgress, Discarded] {
        assert!(!completed.truth(C, Property::Terminal, true).state(C, state).termination(P));
    }
    assert!(!completed.truth(C, Property::Terminal, true).termination(ROOT), "c is not the root's");
}
