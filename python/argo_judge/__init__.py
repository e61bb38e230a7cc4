"""What people run and import around argo_judge, the engine that judges canary measurements for Argo Rollouts."""

VERSION = "0.1.0"
# The name of the command that has all commands.
PROGRAM = "argo-judge-tools"
