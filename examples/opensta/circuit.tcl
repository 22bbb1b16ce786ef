# The circuit with its clock and its ports, for reports.tcl and confirm.tcl. No latency and no uncertainty is set here.
read_liberty osu018_stdcells.lib
read_verilog dds.net.v
link_design dds

proc clock_and_ports {period} {
    create_clock -name clk -period $period [get_ports clk]
    set inputs [get_ports {reset din_*}]
    set_input_delay -clock clk -min 0.1 $inputs
    set_input_delay -clock clk -max 0.3 $inputs
    set_output_delay -clock clk -min 0 [get_ports dout_*]
    set_output_delay -clock clk -max 0.2 [get_ports dout_*]
    return $inputs
}
