#!/usr/bin/env bash
# Draws the chart of the sheet on standard input into the file bend.chart, and prints its line, or the line of its refusal.
# Ends with 0 for a line, 1 for a refusal, 2 when the system refused something. Builds the program first if it is not there.
. "$(dirname "$0")/launch.sh" bend
