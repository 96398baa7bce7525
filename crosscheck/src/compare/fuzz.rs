//! Junk and near-valid batches, runs and recordings, batches for any chip: library
//! against second implementation, as many of each as there are cases.

use super::{Plan, Report};
use crate::generate::fuzz;

pub fn run(plan: &Plan, report: &mut Report) {
    super::batch::each(plan, report, &[], fuzz::batch);
    super::order::each(plan, report, &[], fuzz::order);
    super::replay::each(plan, report, &[], fuzz::recording);
}
