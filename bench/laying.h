/* Sheets laid node by node, over features of size 8. */
#ifndef LAYING_H
#define LAYING_H
#include <stddef.h>
#include <stdint.h>

extern uint32_t laid_nodes; /* how many there are; 0 begins anew */

/* The word of the node with these branches, each a phrase or the word of a node: one that is there, or a new one, which must come after its branches. */
uint32_t laid_node(uint32_t feature, const uint32_t *branches);
/* Lays the sheet of all nodes with this root, and gives its bytes. The nodes must be those that a walk from the root finishes, in that order. */
size_t laid_sheet(uint8_t *sheet, int features, uint32_t root);
#endif
