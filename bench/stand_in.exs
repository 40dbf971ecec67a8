# Shards of a tracker that stand in for those of Phoenix.Tracker, in one Erlang node: messages and states of the same shape, as
# far as examples/phoenix/bench_tracer.ex reads them, and no more. Run by bench/phoenix:
#
#     elixir stand_in.exs TRACER SEED STEPS EVENTS
#
# plays a random run of three shards, some of whose links are cut for a while, and writes the events that the tracer tells, with
# what each shard lists now and then. What a real tracker does besides stands in docs/PHOENIX.md.
[tracer, seed, steps, path] = System.argv()
Code.compile_file(tracer)

defmodule StandIn.State do
  defstruct replica: nil, context: %{}, clouds: %{}, values: nil, delta: nil, replicas: %{}, mode: :normal

  def new(replica) do
    values = :ets.new(:values, [:set, :public])
    reset_delta(%__MODULE__{replica: replica, context: %{replica => 0}, replicas: %{replica => :up}, values: values})
  end

  def reset_delta(state), do: %{state | delta: %{mode: :delta, clouds: %{}, values: %{}}}
  def has_delta?(state), do: map_size(state.delta.clouds) > 0
  def tracked?(state, pid, topic, key), do: :ets.member(state.values, {topic, pid, key})

  def join(state, pid, topic, key, meta) do
    {state, tag} = bump(state)
    :ets.insert(state.values, {{topic, pid, key}, meta, tag})
    put_in(state.delta.values[tag], {pid, topic, key, meta})
  end

  def leave(state, pid, topic, key) do
    case :ets.lookup(state.values, {topic, pid, key}) do
      [{at, _meta, tag}] ->
        {state, _tag} = bump(state)
        :ets.delete(state.values, at)
        without(state, tag)

      [] ->
        state
    end
  end

  def leave(state, pid) do
    own = :ets.match(state.values, {{:"$1", pid, :"$2"}, :_, {state.replica, :_}})
    Enum.reduce(own, state, fn [topic, key], state -> leave(state, pid, topic, key) end)
  end

  def update(state, pid, topic, key, meta) do
    [{_at, _meta, tag}] = :ets.lookup(state.values, {topic, pid, key})
    state |> without(tag) |> join(pid, topic, key, meta)
  end

  defp without(state, tag) do
    delta = %{state.delta | clouds: put_tag(state.delta.clouds, tag), values: Map.delete(state.delta.values, tag)}
    %{state | delta: delta}
  end

  defp bump(state) do
    clock = state.context[state.replica] + 1
    tag = {state.replica, clock}
    delta = %{state.delta | clouds: put_tag(state.delta.clouds, tag)}
    {%{state | context: Map.put(state.context, state.replica, clock), delta: delta}, tag}
  end

  defp put_tag(clouds, {replica, _} = tag), do: Map.update(clouds, replica, MapSet.new([tag]), &MapSet.put(&1, tag))

  defp seen?(context, clouds, {replica, clock} = tag),
    do: Map.get(context, replica, 0) >= clock or tag in Map.get(clouds, replica, MapSet.new())

  def extract(state, names) do
    values =
      for {{topic, pid, key}, meta, {replica, _} = tag} <- :ets.tab2list(state.values), replica in names, into: %{} do
        {tag, {pid, topic, key, meta}}
      end

    %{mode: :normal, context: Map.take(state.context, names), clouds: Map.take(state.clouds, names), values: values}
  end

  # A delta has an empty context. An entry that was seen and is no longer sent has left; one that is new has joined.
  def merge(state, sent) do
    context = Map.get(sent, :context, %{})

    for {at, _meta, {replica, _} = tag} <- :ets.tab2list(state.values),
        replica != state.replica,
        not Map.has_key?(sent.values, tag),
        seen?(context, sent.clouds, tag),
        do: :ets.delete(state.values, at)

    for {{replica, _} = tag, {pid, topic, key, meta}} <- sent.values,
        Map.has_key?(state.context, replica),
        not seen?(state.context, state.clouds, tag),
        do: :ets.insert(state.values, {{topic, pid, key}, meta, tag})

    known = &Map.has_key?(state.context, &1)
    contexts = for {replica, clock} <- context, known.(replica), into: %{}, do: {replica, clock}
    clouds = for {replica, cloud} <- sent.clouds, known.(replica), into: %{}, do: {replica, cloud}

    compact(%{
      state
      | context: Map.merge(state.context, contexts, fn _, a, b -> max(a, b) end),
        clouds: Map.merge(state.clouds, clouds, fn _, a, b -> MapSet.union(a, b) end)
    })
  end

  defp compact(state) do
    Enum.reduce(state.clouds, state, fn {replica, cloud}, state ->
      clocks = cloud |> Enum.map(&elem(&1, 1)) |> Enum.sort()

      {clock, left} =
        Enum.reduce(clocks, {state.context[replica], []}, fn it, {clock, left} ->
          cond do
            it <= clock -> {clock, left}
            it == clock + 1 -> {it, left}
            true -> {clock, [{replica, it} | left]}
          end
        end)

      context = Map.put(state.context, replica, clock)
      %{state | context: context, clouds: Map.put(state.clouds, replica, MapSet.new(left))}
    end)
  end

  def up(state, replica),
    do: %{state | context: Map.put_new(state.context, replica, 0), replicas: Map.put(state.replicas, replica, :up)}

  def down(state, replica), do: %{state | replicas: Map.put(state.replicas, replica, :down)}

  def permdown(state, replica) do
    :ets.match_delete(state.values, {:_, :_, {replica, :_}})

    %{
      state
      | context: Map.delete(state.context, replica),
        clouds: Map.delete(state.clouds, replica),
        replicas: Map.delete(state.replicas, replica)
    }
  end
end

defmodule StandIn.Shard do
  use GenServer
  alias StandIn.State

  def start(replica, net), do: GenServer.start(__MODULE__, {replica, net})
  def init({replica, net}), do: {:ok, %{replica: replica, net: net, presences: State.new(replica), pending: %{}}}

  defp put(state, presences), do: %{state | presences: presences}
  defp marked(meta), do: Map.put(meta, :phx_ref, Base.encode16(:crypto.strong_rand_bytes(4)))

  def handle_call({:track, pid, topic, key, meta}, _from, state) do
    if State.tracked?(state.presences, pid, topic, key),
      do: {:reply, {:error, :already_tracked}, state},
      else: {:reply, :ok, put(state, State.join(state.presences, pid, topic, key, marked(meta)))}
  end

  def handle_call({:untrack, pid, topic, key}, _from, state),
    do: {:reply, :ok, put(state, State.leave(state.presences, pid, topic, key))}

  def handle_call({:untrack, pid}, _from, state), do: {:reply, :ok, put(state, State.leave(state.presences, pid))}

  def handle_call({:update, pid, topic, key, meta}, _from, state) do
    if State.tracked?(state.presences, pid, topic, key),
      do: {:reply, :ok, put(state, State.update(state.presences, pid, topic, key, marked(meta)))},
      else: {:reply, {:error, :nopresence}, state}
  end

  def handle_info({:EXIT, pid, _reason}, state), do: {:noreply, put(state, State.leave(state.presences, pid))}

  def handle_info(:heartbeat, state) do
    presences = state.presences
    delta = if State.has_delta?(presences), do: presences.delta, else: :empty
    send(state.net, {:broadcast, state.replica, {:pub, :heartbeat, state.replica, delta, presences.context}})

    for {from, clocks} <- state.pending, behind?(presences.context, state.replica, clocks) do
      request = {:pub, :transfer_req, make_ref(), state.replica, {nil, presences.context}}
      send(state.net, {:direct, state.replica, from, request})
    end

    {:noreply, %{state | presences: State.reset_delta(presences), pending: %{}}}
  end

  def handle_info({:pub, :heartbeat, from, delta, clocks}, state) do
    state = if state.presences.replicas[from] == :up, do: state, else: put(state, State.up(state.presences, from))
    state = %{state | pending: Map.put(state.pending, from, clocks)}
    {:noreply, if(delta == :empty, do: state, else: put(state, State.merge(state.presences, delta)))}
  end

  def handle_info({:pub, :transfer_req, ref, from, {_, clocks}}, state) do
    sent = State.extract(state.presences, Map.keys(clocks))
    send(state.net, {:direct, state.replica, from, {:pub, :transfer_ack, ref, state.replica, sent}})
    {:noreply, state}
  end

  def handle_info({:pub, :transfer_ack, _ref, _from, sent}, state),
    do: {:noreply, put(state, State.merge(state.presences, sent))}

  # These stand for a replica that was silent for too long.
  def handle_info({:silent, :down, replica}, state), do: {:noreply, put(state, State.down(state.presences, replica))}
  def handle_info({:silent, :permdown, replica}, state), do: {:noreply, put(state, State.permdown(state.presences, replica))}

  defp behind?(context, own, clocks),
    do: Enum.any?(clocks, fn {replica, clock} -> replica != own and clock > Map.get(context, replica, clock) end)
end

defmodule StandIn.Net do
  # Some links, pairs of a sender and a receiver, are cut.
  def start, do: spawn_link(fn -> carry(%{}, []) end)

  defp carry(shards, cut) do
    receive do
      {:shards, shards} ->
        carry(shards, cut)

      {:cut, cut} ->
        carry(shards, cut)

      {:broadcast, from, message} ->
        for {to, pid} <- shards, to != from, {from, to} not in cut, do: send(pid, message)
        carry(shards, cut)

      {:direct, from, to, message} ->
        if {from, to} not in cut, do: send(shards[to], message)
        carry(shards, cut)
    end
  end
end

:rand.seed(:exsss, {String.to_integer(seed), 2, 3})
net = StandIn.Net.start()
replicas = [{:"app@10.0.0.1", 171}, {:"app@10.0.0.2", 172}, {:"app@10.0.0.3", 173}]
shards = Map.new(replicas, fn replica -> {:ok, pid} = StandIn.Shard.start(replica, net); {replica, pid} end)
send(net, {:shards, shards})
{:ok, tracer} = BenchTracer.start(path, Map.values(shards))
keys = ["alice", "bob", "müller", "Ann Lee", "50%", "", "~"]
topics = ["room:lobby", "room:1"]
pids = Map.new(replicas, fn replica -> {replica, for(_ <- 1..3, do: spawn(fn -> Process.sleep(:infinity) end))} end)

settle = fn ->
  for _ <- 1..3, {_, pid} <- shards, do: :sys.get_state(pid)
  Process.sleep(1)
end

for _ <- 1..String.to_integer(steps) do
  replica = Enum.random(replicas)
  shard = shards[replica]
  pid = Enum.random(pids[replica])
  {topic, key} = {Enum.random(topics), Enum.random(keys)}

  case :rand.uniform(13) do
    it when it in 1..3 -> GenServer.call(shard, {:track, pid, topic, key, %{online_at: :rand.uniform(99), device: "phone"}})
    4 -> GenServer.call(shard, {:untrack, pid, topic, key})
    5 -> GenServer.call(shard, {:update, pid, topic, key, %{away: :rand.uniform(9)}})
    6 -> send(shard, {:EXIT, pid, :killed})
    7 ->
      other = Enum.random(replicas -- [replica])
      next = %{up: :down, down: :permdown}[:sys.get_state(shard).presences.replicas[other]]
      if next, do: send(shard, {:silent, next, other})
    8 ->
      alone = Enum.random(replicas)
      links = for it <- replicas, it != alone, link <- [{alone, it}, {it, alone}], do: link
      send(net, {:cut, Enum.random([[], links, [hd(links)]])})
    9 -> BenchTracer.online(tracer)
    _ -> send(shard, :heartbeat)
  end

  settle.()
end

send(net, {:cut, []})
settle.()
BenchTracer.online(tracer)
BenchTracer.stop(tracer)
