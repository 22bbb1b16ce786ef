# Reports, from each register and from all inputs together, the worst setup and the worst hold check of each pin and port that is reached:
# sta -no_splash -exit reports.tcl > dds.reports
source circuit.tcl
set period 10
set inputs [clock_and_ports $period]

proc report_from {name from} {
    puts "from $name"
    foreach delay {max min} {
        report_checks -from $from -path_delay $delay -group_count 1000 -format end -digits 6 -no_line_splits
    }
}

puts "period $period"
report_from host $inputs
set pins {}
foreach pin [all_registers -clock_pins] { lappend pins [get_full_name $pin] }
foreach pin [lsort -dictionary $pins] { report_from $pin [get_pins $pin] }
