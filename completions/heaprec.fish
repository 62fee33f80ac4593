# Completion of heaprec for fish.
complete -c heaprec -l modules -r -F -d "A file of module lines"
complete -c heaprec -l summary -d "Writes the figures of the recording too"
complete -c heaprec -l check -r -F -d "A trace, of which is told whether it is a recording"
