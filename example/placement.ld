/* A pool at an address of its own, beside whatever the linker does with the rest: gcc .. -T example/placement.ld. On a board the address is that of the RAM that the grids may have.
   It stands behind all that is loaded, so that start-up code which clears from __bss_start to _end does not come here. */
SECTIONS
{
  .yoldrick_pool 0x20000000 (NOLOAD) : ALIGN(8)
  {
    *(.bss.yoldrick_pool)
  }
}
INSERT AFTER .comment;
