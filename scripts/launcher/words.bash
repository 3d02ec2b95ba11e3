# Made of docs/wsc.1 by python/run repo.manual.
# shellcheck shell=bash disable=SC2034
commands=(run plain format compile multi check exec list trace replay decouple grid stream optimize gen bench)
options=(workers budget elements waves turns memory stats progress)
declare -A options_of=(
    [run]="workers budget memory stats"
    [plain]="turns memory stats"
    [format]=""
    [compile]=""
    [multi]="workers budget memory stats"
    [check]=""
    [exec]="workers budget memory stats"
    [list]=""
    [trace]="budget"
    [replay]=""
    [decouple]="budget memory stats"
    [grid]="elements waves budget memory stats"
    [stream]="budget memory stats progress"
    [optimize]=""
    [gen]=""
    [bench]="workers budget"
)
declare -A ranges_of=(
    [run.workers]="1 8"
    [multi.workers]="1 8"
    [exec.workers]="1 8"
    [bench.workers]="1 8"
    [run.budget]="0 4000000"
    [multi.budget]="0 4000000"
    [exec.budget]="0 4000000"
    [decouple.budget]="0 4000000"
    [bench.budget]="0 4000000"
    [trace.budget]="0 100000"
    [grid.budget]="0 100000"
    [stream.budget]="0 18446744073709551615"
    [grid.elements]="1 64"
    [grid.waves]="1 1000000"
    [plain.turns]="0 4000000"
    [gen.NUMBER]="0 1000000"
    [bench.NUMBER]="0 1000000"
)
