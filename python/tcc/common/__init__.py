"""What all packages share: records and annotations as files, limits, kinds of faults, and what scripts print."""
