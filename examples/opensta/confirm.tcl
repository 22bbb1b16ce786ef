# Sets the latencies of the answer dds.list, and reports the worst checks at its period and at one that is 1 ps shorter:
# sta -no_splash -exit confirm.tcl > dds.confirmed
source circuit.tcl

proc lines_of {name} {
    set file [open $name]
    set lines [split [read $file] \n]
    close $file
    return $lines
}

# The reports name the registers in the order of the network's numbers, with the host first.
set senders [lsearch -all -inline [lines_of dds.reports] "from *"]

proc latencies {} {
    global senders
    foreach line [lsearch -all -inline [lines_of dds.list] "latency *"] {
        lassign $line word number latency
        set pin [lindex $senders $number 1]
        if {$pin ne "host"} { set_clock_latency [expr {$latency / 1000.0}] [get_pins $pin] }
    }
}

proc confirm {picoseconds} {
    puts "period $picoseconds ps"
    clock_and_ports [expr {$picoseconds / 1000.0}]
    set_clock_uncertainty 0.02 [get_clocks clk]
    latencies
    foreach delay {max min} { report_checks -path_delay $delay -format end -digits 6 -no_line_splits }
}

set period [lindex [lines_of dds.list] 0 1]
confirm $period
confirm [expr {$period - 1}]
