"""`python3 -m tablebuilder` is `tablebuilder-ask`."""

import sys

from tablebuilder.ask import main

sys.exit(main())
