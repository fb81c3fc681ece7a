"""The sources as the compiler sees them: functions read from MIR, and what can be told of their numbers."""
