# Made as those that are refused.
. "$(dirname "$0")/../policy_entries_refused/data.sh"
