from odb_batch import Fault, check, plan

batch = {"requests": [{"id": "a", "method": "get", "url": "Books"}]}
try:
    print(check(batch))
    print([request.id for request in plan(batch) if request.level == 0])
except Fault as fault:
    print(fault.code, fault.name, fault.place, fault.explanation)
