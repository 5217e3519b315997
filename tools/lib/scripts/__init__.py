"""What the scripts of bin/ share: the crates, the arguments of the programs, how a program is started, tried and installed."""
