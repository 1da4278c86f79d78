"""The commands of `ptab`, in the order in which its help and docs/commands.md list them, each with its exit statuses. It is the one list
for all scripts."""
STATUSES = {"show": "0123456", "verify": "01256", "locate": "012456", "free": "012456", "types": "0256", "edit": "023456",
            "plan": "023456", "check": "012356", "apply": "012356", "repair": "023456", "adopt": "023456",
            "set": "02356"}
COMMANDS = tuple(STATUSES)
