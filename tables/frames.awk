# Writes a table from a list of jobs with times in microseconds: work and masked time round up, deadlines and separations round down.
#   task NAME                    the next lower task; its lines follow
#   mask TIME NOTES...           for so long it masks interrupts
#   job WORK DEADLINE NOTES...   its next vertex
#   next FROM TO SEPARATION      its next edge
BEGIN { tick = 125; largest_d = 1000; largest_p = 60000 }
function down(time, most) { return time < most * tick ? int(time / tick) : most }
function up(time) { return int(time / tick) + (time % tick > 0) }
function put_task() {
  if (mask) printf "04%02x%02x%04x\n%s%s", vertices, edges, mask, vertex_lines, edge_lines
  else if (vertices) printf "01%02x%02x\n%s%s", vertices, edges, vertex_lines, edge_lines
  vertices = edges = mask = 0
  vertex_lines = edge_lines = ""
}
$1 == "task" { put_task() }
$1 == "mask" { mask = up($2) }
$1 == "job" { vertices++; vertex_lines = vertex_lines sprintf("02%04x%04x\n", up($2), down($3, largest_d)) }
$1 == "next" { edges++; edge_lines = edge_lines sprintf("03%02x%02x%04x\n", $2, $3, down($4, largest_p)) }
END { put_task(); print "00" }
