"""`python3 -m argo_judge`, and the command that pip installs."""
from argo_judge.running import run_command


def main() -> None:
    """Runs the command, and ends."""
    run_command()


if __name__ == "__main__":
    main()
