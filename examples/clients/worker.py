"""Works off a queue behind a server: takes the place of the next job, fetches the job, and adds it to a sum. Any number
of workers share the queue, in any language (`worker.pl`, `worker.sh`), and each may be killed and begun again.

usage: worker.py ADDRESS ELEMENT JOBS      ADDRESS is such as unix:/run/imem.sock, and ELEMENT is this worker's alone

The first block has two M cells: the next job's place and the sum. Behind it stands one of I cells, the jobs: somebody
stores them, before or after they are fetched. The worker keeps no file. It begins at the first request that it hasn't
confirmed, and asks again from there. It needs the package luntrebis, and neither a library nor a program.
"""
import asyncio
import sys

import luntrebis.aio

NEXT, SUM, FIRST = 0, 1, 2


async def main(address, element, jobs):
    async with await luntrebis.aio.connect(address, patience=600) as image:
        maker, me = image.element(0), image.element(int(element))
        await maker.alloc_m(2)  # The same requests by each worker, under the same numbers: they are done once.
        await maker.alloc_i(int(jobs))
        await asyncio.gather(maker.put(NEXT, 0), maker.put(SUM, 0))
        while True:
            at = await me.take(NEXT)
            me.put(NEXT, min(at + 1, int(jobs)))
            if at == int(jobs):
                break
            job = await me.fetch(FIRST + at)
            total = await me.take(SUM)
            await me.put(SUM, total + job)
            me.done()
        await me.done()


asyncio.run(main(*sys.argv[1:]))
