"""The fields that the Custom Resources of Argo Rollouts have, and values that aren't as these say."""
