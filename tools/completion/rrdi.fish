# SPDX-License-Identifier: MIT OR Apache-2.0
# Completes the arguments of rrdi in fish, and those of a tool through a link that has the tool's name. The words come from
# the completion of bash, which must be installed.
set -g __rrdi_offers (dirname (realpath (status filename)))/offers

function __rrdi_offer
    $__rrdi_offers (commandline --cut-at-cursor --current-process | string join ' ')
end

complete --command (basename (status filename) .fish) --no-files --arguments '(__rrdi_offer)'
