// Judges sheets by the pages' rules, for test_rules.py: a question on each line of the input, as
// JSON, and an answer on each line of the output.

import readline from "node:readline";

import * as rules from "../../web/rules.js";

const ANSWERS = {
  faults: ({ terms, bids }) => rules.faultsOf(terms, bids),
  activity: ({ products, demands }) => rules.activityOf(products, demands),
  asked: ({ products, bids }) => (
    rules.activityOf(products, rules.askedDemands(products, bids))),
  least: ({ terms, bids }) => rules.leastActivity(terms, bids),
  eligibility: ({ activity, eligibility, requirement }) => (
    rules.nextEligibility(activity, eligibility, requirement)),
  needed: ({ eligibility, requirement }) => rules.neededActivity(eligibility, requirement),
};

for await (const line of readline.createInterface({ input: process.stdin })) {
  const { what, ...given } = JSON.parse(line);
  console.log(JSON.stringify(ANSWERS[what](given)));
}
