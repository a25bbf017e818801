% Prints the seconds of clingo's grounding and of its solving alone, finer than the milliseconds of its own statistics.
#script (lua)
function main(program)
    local start = os.clock()
    program:ground({{"base", {}}})
    local grounded = os.clock()
    program:solve()
    io.stderr:write(string.format("%.6f %.6f\n", grounded - start, os.clock() - grounded))
end
#end.
