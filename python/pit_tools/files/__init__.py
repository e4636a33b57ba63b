"""Files that commands read and write: outputs that appear together, records of sums, locks."""
